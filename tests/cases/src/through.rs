//! A call made through one of the engines, and what came of it.

use crate::answer::Answer;
use crate::call::Lent;
use crate::state::State;
use std::panic::{catch_unwind, AssertUnwindSafe};

/// What came of a call.
pub struct Came {
    pub answer: Answer,
    /// The state as the engine gives it back.
    pub after: State,
    /// The first byte of the output that was touched and is no part of the answer.
    pub touched: Option<usize>,
}

/// The library or the model.
pub trait Through {
    fn name(&self) -> &'static str;

    /// Makes the call on a copy of the state. `None` if this engine can't be lent it.
    fn call(&self, state: &State, lent: &Lent) -> Option<Came>;

    /// What the engine knows of a state: all of it, or what is not ignored.
    fn known(&self, state: &State) -> State;
}

/// Makes the call. An engine that panics has given an answer that no row wants.
pub fn called(engine: &dyn Through, state: &State, lent: &Lent) -> Option<Came> {
    let panicked =
        |_| Some(Came { answer: Answer::Odd("a panic".to_string()), after: engine.known(state), touched: None });
    catch_unwind(AssertUnwindSafe(|| engine.call(state, lent))).unwrap_or_else(panicked)
}

/// Bytes behind the lent ones, which a call must leave alone too.
const BEHIND: usize = 64;

/// An output with a pattern in it.
pub struct Output {
    bytes: Vec<u8>,
    lent: usize,
}

impl Output {
    pub fn of(lent: usize) -> Output {
        Output { bytes: (0..lent + BEHIND).map(pattern).collect(), lent }
    }

    pub fn lend(&mut self) -> &mut [u8] {
        &mut self.bytes[..self.lent]
    }

    /// The bytes that a call says it wrote.
    pub fn written(&self, length: usize) -> Option<Vec<u8>> {
        self.bytes[..self.lent].get(..length).map(<[u8]>::to_vec)
    }

    /// The first byte from a place on that was touched.
    pub fn touched_from(&self, place: usize) -> Option<usize> {
        (place..self.bytes.len()).find(|at| self.bytes[*at] != pattern(*at))
    }
}

/// Never 0, and another byte at each place nearby.
fn pattern(place: usize) -> u8 {
    0x80 | (place % 101) as u8
}

/// Behind what an answer wrote, nothing may be touched; of an answer that wrote nothing, the whole output.
pub fn came(answer: Answer, after: State, output: &Output) -> Came {
    let written = match &answer {
        Answer::Bytes(bytes) | Answer::Due(bytes, _) => bytes.len(),
        _ => 0,
    };
    Came { answer, after, touched: output.touched_from(written) }
}
