//! Sixteen signed 32-bit counters of a shard, each with its full mark, and what a piece does to one.

use crate::pieces::{Piece, Pieces, ADD, KEYS, MOST, PUT};

/// What a piece gave, and whether it is marked kept.
#[derive(Clone, Copy, Debug, Default, PartialEq, Eq)]
pub struct Value {
    pub value: i32,
    pub kept: bool,
}

/// The first `count` of the list.
#[derive(Clone, Copy, Debug, Default)]
pub struct Values {
    pub count: u32,
    pub list: [Value; MOST],
}

impl Values {
    /// These results, of which there are at most eight.
    pub fn of(values: &[Value]) -> Values {
        let mut list = [Value::default(); MOST];
        list[..values.len()].copy_from_slice(values);
        Values { count: values.len() as u32, list }
    }

    pub fn entries(&self) -> &[Value] {
        &self.list[..MOST.min(self.count as usize)]
    }

    pub fn too_many(&self) -> bool {
        self.count as usize > MOST
    }

    fn push(&mut self, value: Value) {
        self.list[self.count as usize] = value;
        self.count += 1;
    }
}

impl PartialEq for Values {
    fn eq(&self, other: &Values) -> bool {
        self.count == other.count && self.entries() == other.entries()
    }
}

impl Eq for Values {}

/// A counter, at first 0 and not full.
#[derive(Clone, Copy, Debug, Default, PartialEq, Eq)]
pub struct Counter {
    pub value: i32,
    /// Set by an add whose sum leaves the range, cleared by a put.
    pub full: bool,
}

impl Counter {
    /// What a read gives: the value, kept exactly if the counter is full.
    pub fn reading(&self) -> Value {
        Value { value: self.value, kept: self.full }
    }

    fn put(&mut self, operand: i32) {
        *self = Counter { value: operand, full: false };
    }

    /// A sum outside the range sets the mark and leaves the value. While the mark is set nothing is added, whether it fits or not.
    fn add(&mut self, operand: i32) {
        if self.full {
            return;
        }
        match i32::try_from(i64::from(self.value) + i64::from(operand)) {
            Ok(sum) => self.value = sum,
            Err(_) => self.full = true,
        }
    }
}

/// Counters of a shard, by key.
pub type Counters = [Counter; KEYS as usize];

/// Does one piece. A put gives the operand and an add the sum; what a counter that is full then gives is marked kept.
pub fn do_piece(counter: &mut Counter, piece: &Piece) -> Value {
    match piece.kind {
        PUT => counter.put(piece.operand),
        ADD => counter.add(piece.operand),
        _ => {}
    }
    counter.reading()
}

/// Does the pieces on a shard, in their order. One that is kept doesn't hold up the others.
pub fn do_pieces(counters: &mut Counters, pieces: &Pieces, shard: u32) -> Values {
    let mut values = Values::default();
    for piece in pieces.on(shard) {
        values.push(do_piece(&mut counters[piece.key as usize], piece));
    }
    values
}
