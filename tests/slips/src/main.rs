//! Shows that the simulator finds each planted slip: the promise that breaks, the seed of the history, and the scenarios (the arguments) that come out otherwise.

use simulator::history::{play, History};
use simulator::scenario::{first_difference, replay};
use slips::{Slip, Slipped};
use std::fs;
use std::process::ExitCode;
use std::time::Instant;

/// Histories tried for a slip before it counts as missed.
const MOST: u64 = 100_000;
/// Histories played with a slip that is harmless to the promises.
const HARMLESS: u64 = 1_000;

fn main() -> ExitCode {
    let read = |file: String| {
        let text = fs::read_to_string(&file).unwrap_or_else(|error| panic!("{file}: {error}"));
        (file, text)
    };
    let scenarios: Vec<(String, String)> = std::env::args().skip(1).map(read).collect();
    let (breaking, harmless): (Vec<Slip>, Vec<Slip>) = Slip::ALL.into_iter().partition(|slip| slip.breaks_promises());
    let missed = breaking.into_iter().filter(|slip| !show(*slip, &scenarios)).count();
    let alarms = harmless.into_iter().filter(|slip| !pass(*slip)).count();
    if missed + alarms == 0 {
        ExitCode::SUCCESS
    } else {
        ExitCode::FAILURE
    }
}

/// Searches for a history that breaks by a slip, and tells of it. Answers whether there is one.
fn show(slip: Slip, scenarios: &[(String, String)]) -> bool {
    println!("{}", slip.words());
    let begun = Instant::now();
    let found = find(slip);
    match &found {
        Some(History { seed, fault: Some(fault), .. }) => {
            println!("  seed {seed} breaks {} ({:.1} s)", fault.check, begun.elapsed().as_secs_f64());
            println!("  {}", fault.what);
            told_alike(slip, *seed, &fault.what);
        }
        _ => println!("  MISSED in {MOST} histories"),
    }
    for (file, text) in scenarios {
        if let Some(difference) = first_difference(text, &replay(&Slipped(slip), text)) {
            println!("  {file}, {difference}");
        }
    }
    found.is_some()
}

/// Plays histories with a slip by which none can break. Answers whether none did.
fn pass(slip: Slip) -> bool {
    println!("{}", slip.words());
    match (0..HARMLESS).map(|seed| play(&Slipped(slip), seed, false)).find(|history| history.fault.is_some()) {
        None => println!("  breaks nothing in {HARMLESS} histories: steps alone tell it from the model"),
        Some(history) => {
            println!("  FALSE ALARM, seed {}", history.seed);
            return false;
        }
    }
    true
}

fn find(slip: Slip) -> Option<History> {
    (0..MOST).map(|seed| play(&Slipped(slip), seed, false)).find(|history| history.fault.is_some())
}

/// The same seed breaks in the same way once more, and the transcript ends with it.
fn told_alike(slip: Slip, seed: u64, what: &str) {
    let told = play(&Slipped(slip), seed, true);
    assert_eq!(told.fault.map(|fault| fault.what).as_deref(), Some(what));
    let last = told.lines.last().expect("a transcript");
    assert!(last.contains("BROKEN") && last.contains(what), "{last}");
}
