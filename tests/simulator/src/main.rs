//! Plays histories and holds them against what must be true of each.
//!
//! `--count N` plays the histories of seeds `--from` (0) on; `--seed N` plays one and prints all that happened in it.

use engine::Tested;
use simulator::history::{play, History};
use simulator::tally::Tally;
use std::process::ExitCode;
use std::time::Instant;

/// The lines of a transcript that are printed of a failure; `--seed` prints them all.
const LAST_LINES: usize = 200;

fn main() -> ExitCode {
    let arguments: Vec<String> = std::env::args().skip(1).collect();
    let value = |name: &str| -> Option<u64> {
        let place = arguments.iter().position(|argument| argument == name)?;
        Some(arguments.get(place + 1)?.parse().expect("a number"))
    };
    match value("--seed") {
        Some(seed) => replay(seed),
        None => many(value("--from").unwrap_or(0), value("--count").unwrap_or(1000)),
    }
}

fn replay(seed: u64) -> ExitCode {
    let history = play(&Tested::default(), seed, true);
    history.lines.iter().for_each(|line| println!("{line}"));
    verdict(&history)
}

fn many(from: u64, count: u64) -> ExitCode {
    let begun = Instant::now();
    let mut tally = Tally::default();
    for seed in from..from + count {
        let history = play(&Tested::default(), seed, false);
        tally.add(&history.tally);
        if history.fault.is_some() {
            return fail(seed);
        }
    }
    tally.entries().iter().for_each(|(what, many)| println!("{many:>10} {what}"));
    println!("{count} histories from seed {from}, none broken, {:.1} s", begun.elapsed().as_secs_f64());
    let untried = tally.entries().iter().find(|(_, many)| *many == 0).copied();
    match untried {
        Some((what, _)) if count >= 1000 => {
            println!("but there were no {what}");
            ExitCode::FAILURE
        }
        _ => ExitCode::SUCCESS,
    }
}

/// Plays a broken history once more, to tell it.
fn fail(seed: u64) -> ExitCode {
    let history = play(&Tested::default(), seed, true);
    let skipped = history.lines.len().saturating_sub(LAST_LINES);
    if skipped > 0 {
        println!("({skipped} earlier lines: --seed {seed})");
    }
    history.lines[skipped..].iter().for_each(|line| println!("{line}"));
    verdict(&history)
}

fn verdict(history: &History) -> ExitCode {
    match &history.fault {
        None => {
            println!("seed {}: nothing broken", history.seed);
            ExitCode::SUCCESS
        }
        Some(fault) => {
            println!("seed {} breaks {}: {}", history.seed, fault.check, fault.what);
            ExitCode::FAILURE
        }
    }
}
