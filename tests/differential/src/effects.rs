//! Which way the pieces of a run took at their counters, and which number each full mark is then.

use engine::layout;
use engine::ran::Done;
use model::pieces::{ADD, PUT};

/// Every way that a piece can take. The cases must meet each.
pub const ALL: [&str; 9] = [
    "add that fits",
    "add kept by the top of the range",
    "add kept by the bottom of the range",
    "add kept by the mark, though it would fit",
    "add kept by the mark, that would not fit either",
    "read, not kept",
    "read, kept",
    "put without a mark",
    "put that clears a mark",
];

pub fn effect(done: &Done) -> &'static str {
    let way = match (done.piece.kind, done.from.full) {
        (ADD, false) if done.fits() => 0,
        (ADD, false) if done.sum() > 0 => 1,
        (ADD, false) => 2,
        (ADD, true) if done.fits() => 3,
        (ADD, true) => 4,
        (PUT, full) => 7 + usize::from(full),
        (_, full) => 5 + usize::from(full),
    };
    ALL[way]
}

/// The numbers that the full marks are in lent memory, by key.
pub type Marks = [u32; 16];

pub fn marks(lent: &layout::Server) -> Marks {
    lent.counters.list.map(|counter| counter.full)
}

/// The marks after these pieces: an add that sets one writes 1, a put writes 0, and nothing else writes.
pub fn marks_after(mut marks: Marks, ran: &[Done]) -> Marks {
    for done in ran {
        let mark = &mut marks[done.piece.key as usize];
        match done.piece.kind {
            PUT => *mark = 0,
            ADD if done.to.full && !done.from.full => *mark = 1,
            _ => {}
        }
    }
    marks
}
