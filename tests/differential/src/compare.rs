//! The same calls of two engines, on the same lent state: the same answers, the same bytes, the same state after.

use crate::coverage::Coverage;
use crate::{at_drive, at_server};
use chance::Chance;
use engine::{text, Lent};
use model::{Message, Refusal};

/// What a buffer holds before a call.
pub const OLD: u8 = 0xa5;

/// What came of a call: the numbers that it answered, first the length of a message, and the whole of the buffer lent to it.
pub struct Outcome {
    pub answer: Result<Vec<u64>, Refusal>,
    pub buffer: Vec<u8>,
}

/// Where two engines part, in words.
pub struct Difference(pub String);

pub type Compared = Result<(), Difference>;

/// Lends the same state to both, makes the same calls, and answers where they part. Each seed is one case.
pub fn compare<A: Lent, B: Lent>(a: &A, b: &B, seed: u64, seen: &mut Coverage) -> Option<Difference> {
    let mut chance = Chance::of(seed);
    let compared = match seed % 3 {
        0 => at_drive::compare_lent(a, b, &mut chance, seen),
        1 => at_server::compare_lent(a, b, &mut chance, seen),
        _ => at_server::compare_fresh(a, b, &mut chance, seen),
    };
    compared.err()
}

impl Outcome {
    /// The numbers, and the message if there is one.
    fn words(&self) -> String {
        match &self.answer {
            Err(refusal) => format!("refused {}", refusal.number()),
            Ok(numbers) if self.buffer.is_empty() => format!("{numbers:?}"),
            Ok(numbers) => {
                let length = self.buffer.len().min(numbers[0] as usize);
                format!("{numbers:?} {}", text::bytes(&self.buffer[..length]))
            }
        }
    }

    /// A refusal must leave the state, `kept` or not, and the buffer as they were lent.
    pub fn refused_in_vain(&self, kept: bool) -> bool {
        self.answer.is_err() && (!kept || self.buffer.iter().any(|byte| *byte != OLD))
    }
}

/// The same answers and bytes. `states` tells how the states after the call differ.
pub fn judge(call: String, ours: &Outcome, theirs: &Outcome, states: Option<String>) -> Compared {
    let parted = if ours.answer != theirs.answer || ours.buffer != theirs.buffer {
        Some(format!("{} and {}", ours.words(), theirs.words()))
    } else {
        states.map(|states| format!("the same answer, and then {states}"))
    };
    parted.map_or(Ok(()), |parted| Err(Difference(format!("{call}: {parted}"))))
}

/// The code that a message begins with; all unknown ones are one.
pub fn code(message: &[u8]) -> u32 {
    let code = message.iter().take(4).fold(0, |high, low| high << 8 | u32::from(*low));
    if Message::CODES.contains(&code) {
        code
    } else {
        u32::MAX
    }
}
