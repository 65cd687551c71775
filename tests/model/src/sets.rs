//! Dependency sets: a word for each shard, in which bit T says that T came earlier in a conflict there.

use crate::cluster::{has, SHARDS};
use crate::pieces::Pieces;

#[derive(Clone, Copy, Debug, Default, PartialEq, Eq)]
pub struct Set(pub [u64; SHARDS as usize]);

impl Set {
    pub const EMPTY: Set = Set([0; SHARDS as usize]);

    /// The word of a shard.
    pub fn word(&self, shard: u32) -> u64 {
        self.0[shard as usize]
    }

    /// The set with one word replaced.
    pub fn with(mut self, shard: u32, word: u64) -> Set {
        self.0[shard as usize] = word;
        self
    }

    /// Every number that stands in one of the words.
    pub fn all(&self) -> u64 {
        self.0.iter().fold(0, |all, word| all | word)
    }

    /// A good set for a number with these pieces: without the number itself, and 0 for each shard that it doesn't touch.
    pub fn suits(&self, t: u32, pieces: &Pieces) -> bool {
        (0..SHARDS).all(|shard| word_suits(self.word(shard), t, pieces.touch(shard)))
    }
}

/// A good word for a number at a shard that it touches or doesn't.
pub fn word_suits(word: u64, t: u32, touched: bool) -> bool {
    !has(word, t) && (touched || word == 0)
}
