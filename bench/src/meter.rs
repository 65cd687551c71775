//! What a call costs: the best time of many, and the instructions that callgrind counts.
//!
//! The program runs twice. Under callgrind each call is made once and its count is left in a file by its label; the second time the calls are timed and the counts are read.

use std::collections::HashMap;
use std::ffi::{c_char, CString};
use std::time::{Duration, Instant};

extern "C" {
    fn count_from();
    fn count_to(label: *const c_char);
}

#[derive(Clone, Copy, Default)]
pub struct Cost {
    pub nanoseconds: f64,
    pub instructions: f64,
}

pub struct Meter {
    pub counting: bool,
    counts: HashMap<String, f64>,
    clock: f64,
}

/// How long a call is tried in a round, and how many rounds there are. What is compared takes turns, so that a slow moment of the machine meets all of it.
const TRIED_FOR: Duration = Duration::from_millis(50);
const ROUNDS: u32 = 5;

impl Cost {
    pub fn least(self, other: Cost) -> Cost {
        Cost { nanoseconds: self.nanoseconds.min(other.nanoseconds), ..self }
    }
}

impl Meter {
    /// Counts if there is no folder of counts to be read.
    pub fn new(folder: Option<String>) -> Meter {
        let mut meter = Meter { counting: folder.is_none(), counts: HashMap::new(), clock: 0.0 };
        meter.counts = folder.map_or_else(HashMap::new, |folder| read_counts(&folder));
        meter.clock = meter.of("nothing", 1, &(), |_| ()).0.nanoseconds;
        meter
    }

    /// The rounds after the first; a count needs none.
    pub fn more_rounds(&self) -> std::ops::Range<u32> {
        1..if self.counting { 1 } else { ROUNDS }
    }

    /// The cost of one call, and the state that it leaves. Each try is on the state of before and makes the call so many times.
    pub fn of<S: Clone>(&self, label: &str, times: u32, before: &S, mut call: impl FnMut(&mut S)) -> (Cost, S) {
        let mut state = before.clone();
        if self.counting {
            call(&mut state);
            state.clone_from(before);
            let label = CString::new(label).expect("a label has no 0");
            unsafe { count_from() };
            call(&mut state);
            unsafe { count_to(label.as_ptr()) };
            return (Cost::default(), state);
        }
        let (mut best, begun) = (f64::MAX, Instant::now());
        while begun.elapsed() < TRIED_FOR {
            state.clone_from(before);
            let start = Instant::now();
            (0..times).for_each(|_| call(&mut state));
            best = best.min(start.elapsed().as_nanos() as f64);
        }
        let count = |label| self.counts.get(label).copied().unwrap_or(f64::NAN);
        let nanoseconds = (best - self.clock) / f64::from(times);
        (Cost { nanoseconds, instructions: count(label) - count("nothing") }, state)
    }
}

/// Callgrind's files: the label stands at the end of the line "desc: Trigger", the count behind "summary:". Behind "totals:" stands the sum over all lines of
/// the program, which on Arm is more than was run.
fn read_counts(folder: &str) -> HashMap<String, f64> {
    let files = std::fs::read_dir(folder).expect("a folder of counts");
    let texts = files.filter_map(|file| std::fs::read_to_string(file.ok()?.path()).ok());
    let after = |text: &str, start| Some(text.lines().find_map(|line| line.strip_prefix(start))?.trim().to_string());
    texts
        .filter_map(|text| {
            let label = after(&text, "desc: Trigger: Client Request: ")?;
            Some((label, after(&text, "summary: ")?.parse().ok()?))
        })
        .collect()
}

/// A line of a table: the library, what it is held against, the ratios, and whether the goal is met by time.
pub fn line(what: &str, library: Cost, other: Cost, goal: Option<f64>) {
    let time = library.nanoseconds / other.nanoseconds;
    let instructions = library.instructions / other.instructions;
    let verdict = match goal {
        None => "".to_string(),
        Some(goal) if time <= goal => format!("{goal:.1}: met"),
        Some(goal) => format!("{goal:.1}: **missed**"),
    };
    println!(
        "| {what} | {:.0} | {:.0} | {time:.2} | {:.0} | {:.0} | {instructions:.2} | {verdict} |",
        library.nanoseconds, other.nanoseconds, library.instructions, other.instructions
    );
}

pub fn head(title: &str, other: &str) {
    println!("\n### {title}\n");
    println!("| | library, ns | {other}, ns | ratio | library, instructions | {other}, instructions | ratio | goal |");
    println!("|---|---|---|---|---|---|---|---|");
}
