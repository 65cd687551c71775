//! Which outcomes of which calls were met, and which must be.

use crate::effects;
use model::Refusal;
use std::collections::BTreeMap;

#[derive(Default)]
pub struct Coverage {
    met: BTreeMap<String, u64>,
}

/// For each call the refusals that it can give and the answers that it must give: codes of messages, or counts, of which 2 is any above 1.
const MUST: [(&str, &[u32], &[u64]); 28] = [
    ("fresh", &[1], &[]),
    ("server takes 0", &[10, 11, 12, 13, 1, 2, 4, 5, 14], &[16, 20, 21]),
    ("server takes 1", &[10, 11, 12, 13, 1, 2, 3, 4, 5, 14], &[17, 20, 21]),
    ("server takes 2", &[10, 11, 12, 13, 1, 2, 3, 5, 6, 14], &[18]),
    ("server takes 3", &[10, 11, 12, 13, 1, 2, 4, 5, 14], &[19, 20, 21]),
    ("server takes 4", &[10, 11, 13, 1, 14], &[20, 22]),
    ("server takes 5", &[10, 11, 13, 1, 14], &[22, 23]),
    ("server takes 20", &[10, 11, 12, 13, 1, 2, 3, 5, 6, 14], &[18]),
    ("server takes 16", &[12, 13], &[]),
    ("a new Commit runs", &[], &[0, 1, 2]),
    ("a repeated Commit runs", &[], &[0, 1, 2]),
    ("a Commit with a number ready", &[10, 11, 12, 1, 2, 3, 5, 6, 14], &[]),
    ("a new Done runs", &[], &[0, 1, 2]),
    ("a repeated Done runs", &[], &[0, 1, 2]),
    ("a Done with a number ready", &[10, 11, 12, 1, 2, 3, 5, 6, 14], &[]),
    ("run", &[13], &[0, 1, 2]),
    ("run until 0", &[13], &[0, 1, 2]),
    ("wanted", &[13], &[0, 1]),
    ("start", &[12, 1, 2], &[0]),
    ("recover", &[12, 1, 2, 9], &[0]),
    ("again", &[13, 8, 9], &[0]),
    ("move on", &[13, 8, 7], &[0]),
    ("due", &[13, 14], &[0, 1, 2, 3]),
    ("drive hears 16", &[10, 11, 13, 1, 8, 3], &[0]),
    ("drive hears 17", &[10, 11, 13, 1, 8], &[0]),
    ("drive hears 19", &[10, 11, 12, 13, 1, 8, 3], &[0]),
    ("drive hears 20", &[10, 11, 12, 13, 1, 2, 8, 5, 3], &[0]),
    ("drive hears 21", &[10, 11, 13, 1, 8], &[0]),
];

/// So often at least.
const ENOUGH: u64 = 5;

fn refused(call: &str, number: u32) -> String {
    format!("{call}: refused {number}")
}

fn answered(call: &str, answer: u64) -> String {
    format!("{call}: answered {answer}")
}

fn done(effect: &str) -> String {
    format!("a piece does: {effect}")
}

impl Coverage {
    /// Notes which way a piece took.
    pub fn note_effect(&mut self, effect: &str) {
        *self.met.entry(done(effect)).or_insert(0) += 1;
    }

    pub fn note(&mut self, call: &str, outcome: Result<u64, Refusal>) {
        let what = match outcome {
            Ok(answer) => answered(call, answer),
            Err(refusal) => refused(call, refusal.number()),
        };
        *self.met.entry(what).or_insert(0) += 1;
    }

    /// What must be met and wasn't, or hardly.
    pub fn missing(&self) -> Vec<String> {
        let must = MUST.iter().flat_map(|(call, refusals, answers)| {
            let refused = refusals.iter().map(|number| refused(call, *number));
            refused.chain(answers.iter().map(|answer| answered(call, *answer))).collect::<Vec<_>>()
        });
        let must = must.chain(effects::ALL.iter().map(|effect| done(effect)));
        must.filter(|what| self.met.get(what).map_or(true, |many| *many < ENOUGH)).collect()
    }

    pub fn kinds(&self) -> usize {
        self.met.len()
    }

    pub fn print(&self) {
        self.met.iter().for_each(|(what, many)| println!("{many:>8} {what}"));
    }
}
