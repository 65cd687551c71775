//! Two engines side by side on the same lent states and the same calls.
//!
//! `--count N` cases from `--from` (0) on, `--seed N` one case; `--coverage` prints what was met.

mod at_drive;
mod at_server;
mod commits;
mod compare;
mod coverage;
mod effects;
mod messages;
mod states;
mod values;

use compare::compare;
use coverage::Coverage;
use engine::{Lent, Plain, Tested};
use slips::{Slip, Slipped};
use std::process::ExitCode;
use std::time::Instant;

/// Cases tried for a slip before it counts as missed.
const MOST: u64 = 200_000;

fn main() -> ExitCode {
    let arguments: Vec<String> = std::env::args().skip(1).collect();
    let value = |name: &str| -> Option<u64> {
        let place = arguments.iter().position(|argument| argument == name)?;
        Some(arguments.get(place + 1)?.parse().expect("a number"))
    };
    let (from, count) = match value("--seed") {
        Some(seed) => (seed, 1),
        None => (value("--from").unwrap_or(0), value("--count").unwrap_or(30_000)),
    };
    let mut seen = Coverage::default();
    let alike = all_alike(&Tested::default(), from, count, &mut seen);
    if arguments.iter().any(|argument| argument == "--coverage") {
        seen.print();
    }
    let well = alike && (count < 10_000 || (everything_met(&seen) && every_slip_found()));
    if well {
        ExitCode::SUCCESS
    } else {
        ExitCode::FAILURE
    }
}

/// The model and what is tested do the same in every case.
fn all_alike(tested: &impl Lent, from: u64, count: u64, seen: &mut Coverage) -> bool {
    let begun = Instant::now();
    for seed in from..from + count {
        if let Some(difference) = compare(&Plain, tested, seed, seen) {
            println!("seed {seed}: {}", difference.0);
            return false;
        }
    }
    println!("{count} cases from seed {from} alike, {:.1} s", begun.elapsed().as_secs_f64());
    true
}

/// The cases reach every refusal of every call, every answer, and every way that a piece can take.
fn everything_met(seen: &Coverage) -> bool {
    let missing = seen.missing();
    println!("{} kinds of outcome met, {} missing", seen.kinds(), missing.len());
    missing.iter().for_each(|what| println!("  missing: {what}"));
    missing.is_empty()
}

/// The cases tell the model from each of its slips.
fn every_slip_found() -> bool {
    let mut missed = 0;
    for slip in Slip::ALL {
        let mut unseen = Coverage::default();
        let found = (0..MOST).find_map(|seed| Some((seed, compare(&Plain, &Slipped(slip), seed, &mut unseen)?)));
        match found {
            Some((seed, difference)) => println!("{}\n  seed {seed}: {:.160}..", slip.words(), difference.0),
            None => {
                missed += 1;
                println!("{}\n  MISSED in {MOST} cases", slip.words());
            }
        }
    }
    missed == 0
}
