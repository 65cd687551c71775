//! Plays the scenarios named and compares what comes out with what they say. `--write` writes what comes out instead.

use engine::Tested;
use simulator::scenario::{first_difference, replay, NO_SUCH};
use std::fs;
use std::process::ExitCode;

fn main() -> ExitCode {
    let (options, files): (Vec<String>, Vec<String>) = std::env::args().skip(1).partition(|a| a.starts_with("--"));
    let write = options.iter().any(|option| option == "--write");
    assert!(!files.is_empty(), "no scenario was named");
    let failed = files.iter().filter(|file| !play(file, write)).count();
    if failed == 0 {
        ExitCode::SUCCESS
    } else {
        ExitCode::FAILURE
    }
}

/// Plays a scenario. Answers whether it came out as written, or could be written.
fn play(file: &str, write: bool) -> bool {
    let written = fs::read_to_string(file).unwrap_or_else(|error| panic!("{file}: {error}"));
    let played = replay(&Tested::default(), &written);
    let fault = if played.contains(NO_SUCH) {
        Some("it has a command that isn't one".to_string())
    } else if write {
        fs::write(file, &played).expect("the scenario can be written");
        None
    } else {
        first_difference(&written, &played)
    };
    println!("{file}: {}", fault.as_deref().unwrap_or("as written"));
    fault.is_none()
}
