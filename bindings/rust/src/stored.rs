//! States as bytes for the disk: each number, little-endian, at the place where the C struct has it, and 0 between.

use crate::layout::{Numbers, Place};
use crate::Refusal;
use std::cmp::Ordering;
use std::mem::size_of;

pub(crate) fn to_bytes<S: Numbers + Clone>(state: &S) -> Vec<u8> {
    let mut bytes = vec![0; size_of::<S>()];
    let mut state = Box::new(state.clone());
    visit_with_places(&mut *state, |at, place| match place {
        Place::Number(number) => bytes[at..at + 4].copy_from_slice(&number.to_le_bytes()),
        Place::Signed(number) => bytes[at..at + 4].copy_from_slice(&number.to_le_bytes()),
        Place::Word(word) => bytes[at..at + 8].copy_from_slice(&word.to_le_bytes()),
    });
    bytes
}

/// The state of such bytes, in form or not. Refuses 10, too few bytes, and 11, too many.
pub(crate) fn from_bytes<S: Numbers + Default>(bytes: &[u8]) -> Result<Box<S>, Refusal> {
    match bytes.len().cmp(&size_of::<S>()) {
        Ordering::Less => return Err(Refusal::BytesShort),
        Ordering::Greater => return Err(Refusal::BytesLeft),
        Ordering::Equal => {}
    }
    let mut state = Box::<S>::default();
    visit_with_places(&mut *state, |at, place| match place {
        Place::Number(number) => *number = u32::from_le_bytes(these(bytes, at)),
        Place::Signed(number) => *number = i32::from_le_bytes(these(bytes, at)),
        Place::Word(word) => *word = u64::from_le_bytes(these(bytes, at)),
    });
    Ok(state)
}

/// So many bytes from a place on.
fn these<const MANY: usize>(bytes: &[u8], at: usize) -> [u8; MANY] {
    let mut these = [0; MANY];
    these.copy_from_slice(&bytes[at..at + MANY]);
    these
}

/// Visits each number with its distance from the beginning of the state.
fn visit_with_places<S: Numbers>(state: &mut S, mut visit: impl FnMut(usize, Place)) {
    let begin = state as *const S as usize;
    state.visit(&mut |place| {
        let address = match &place {
            Place::Number(number) => *number as *const u32 as usize,
            Place::Signed(number) => *number as *const i32 as usize,
            Place::Word(word) => *word as *const u64 as usize,
        };
        visit(address - begin, place);
    });
}
