//! Pieces, lists of them, and sets.

use crate::cluster::{numbers_in, PIECES, SHARDS};
use crate::layout::{Piece, Pieces, Set};
use std::fmt;

impl Piece {
    /// The kind that reads a counter.
    pub const READ: u32 = 0;
    /// The kind that puts a value, and clears the counter's full mark.
    pub const PUT: u32 = 1;
    /// The kind that adds to a counter. A sum out of range leaves the value and makes the counter full; a full one takes no add.
    pub const ADD: u32 = 2;

    /// Reads a counter. The result is [kept](crate::layout::Value::kept) if the counter is full.
    pub const fn read(shard: u32, key: u32) -> Piece {
        Piece { shard, key, kind: Piece::READ, operand: 0 }
    }

    /// Puts a value into a counter, which is then not full.
    pub const fn put(shard: u32, key: u32, operand: i32) -> Piece {
        Piece { shard, key, kind: Piece::PUT, operand }
    }

    /// Adds to a counter. If the sum does not fit, or the counter is full, the value stays and is the result,
    /// [kept](crate::layout::Value::kept).
    pub const fn add(shard: u32, key: u32, operand: i32) -> Piece {
        Piece { shard, key, kind: Piece::ADD, operand }
    }
}

/// As document 01 writes it: `(0,3,put,5)`.
impl fmt::Display for Piece {
    fn fmt(&self, out: &mut fmt::Formatter) -> fmt::Result {
        let Piece { shard, key, kind, operand } = self;
        match *kind {
            Piece::READ => write!(out, "({shard},{key},read,{operand})"),
            Piece::PUT => write!(out, "({shard},{key},put,{operand})"),
            Piece::ADD => write!(out, "({shard},{key},add,{operand})"),
            other => write!(out, "({shard},{key},{other},{operand})"),
        }
    }
}

/// The first eight are listed and all are counted, so that the library refuses more than eight, by 12.
impl From<&[Piece]> for Pieces {
    fn from(pieces: &[Piece]) -> Pieces {
        let mut list = [Piece::default(); PIECES];
        list.iter_mut().zip(pieces).for_each(|(to, piece)| *to = *piece);
        Pieces { list, count: counted(pieces) }
    }
}

impl Pieces {
    /// The pieces up to the count.
    pub fn entries(&self) -> &[Piece] {
        listed(&self.list, self.count)
    }
}

/// The count of a list that may be longer than any message's.
pub(crate) fn counted<T>(list: &[T]) -> u32 {
    u32::try_from(list.len()).unwrap_or(u32::MAX)
}

/// The entries of a list up to its count.
pub(crate) fn listed<T>(list: &[T], count: u32) -> &[T] {
    &list[..list.len().min(count as usize)]
}

impl Set {
    /// The set with nothing in it.
    pub const EMPTY: Set = Set { w0: 0, w1: 0, w2: 0, w3: 0 };

    /// The words, by shard.
    pub const fn words(&self) -> [u64; SHARDS as usize] {
        [self.w0, self.w1, self.w2, self.w3]
    }

    /// Whether it has nothing in it.
    pub fn is_empty(&self) -> bool {
        *self == Set::EMPTY
    }

    /// Each number in it with the shard of its word, shard by shard and rising.
    ///
    /// ```
    /// let set = drobulets::Set::from([2, 0, 0, 256]);
    /// assert_eq!(set.numbers().collect::<Vec<_>>(), [(0, 1), (3, 8)]);
    /// ```
    pub fn numbers(&self) -> impl Iterator<Item = (u32, u32)> {
        let words = self.words();
        (0..SHARDS).flat_map(move |shard| numbers_in(words[shard as usize]).map(move |t| (shard, t)))
    }
}

/// A word for each shard.
impl From<[u64; SHARDS as usize]> for Set {
    fn from([w0, w1, w2, w3]: [u64; SHARDS as usize]) -> Set {
        Set { w0, w1, w2, w3 }
    }
}
