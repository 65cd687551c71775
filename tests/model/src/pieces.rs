//! The pieces of a transaction, their rules, and when two transactions conflict.

use crate::cluster::SHARDS;

/// At most eight pieces, and at most eight results.
pub const MOST: usize = 8;
/// Counters of a shard.
pub const KEYS: u32 = 16;

pub const READ: u32 = 0;
pub const PUT: u32 = 1;
pub const ADD: u32 = 2;

/// What one transaction does to one counter.
#[derive(Clone, Copy, Debug, Default, PartialEq, Eq)]
pub struct Piece {
    pub shard: u32,
    pub key: u32,
    pub kind: u32,
    pub operand: i32,
}

impl Piece {
    /// The rules of one piece: each part in its range, and a read without operand.
    fn keeps_rules(&self) -> bool {
        let in_range = self.shard < SHARDS && self.key < KEYS && self.kind <= ADD;
        in_range && (self.kind != READ || self.operand == 0)
    }

    /// Pieces stand in the order of this. Asked of pieces in range only.
    fn place(&self) -> u32 {
        KEYS * self.shard + self.key
    }
}

/// The first `count` of the list. A count above eight is a fault that the refusals find.
#[derive(Clone, Copy, Debug, Default)]
pub struct Pieces {
    pub count: u32,
    pub list: [Piece; MOST],
}

impl Pieces {
    /// These pieces, of which there are at most eight.
    pub fn of(pieces: &[Piece]) -> Pieces {
        let mut list = [Piece::default(); MOST];
        list[..pieces.len()].copy_from_slice(pieces);
        Pieces { count: pieces.len() as u32, list }
    }

    /// The pieces up to the count.
    pub fn entries(&self) -> &[Piece] {
        &self.list[..MOST.min(self.count as usize)]
    }

    /// Whether there are more pieces than can be.
    pub fn too_many(&self) -> bool {
        self.count as usize > MOST
    }

    /// The piece rules: 1 to 8 pieces, each by its own rules, strictly rising by 16 × shard + key.
    pub fn keep_rules(&self) -> bool {
        let pieces = self.entries();
        !pieces.is_empty()
            && !self.too_many()
            && pieces.iter().all(Piece::keeps_rules)
            && pieces.windows(2).all(|pair| pair[0].place() < pair[1].place())
    }

    /// The pieces on a shard.
    pub fn on(&self, shard: u32) -> impl Iterator<Item = &Piece> {
        self.entries().iter().filter(move |piece| piece.shard == shard)
    }

    /// Whether there is a piece on a shard.
    pub fn touch(&self, shard: u32) -> bool {
        self.on(shard).next().is_some()
    }

    /// The shards with a piece, rising.
    pub fn shards(&self) -> impl Iterator<Item = u32> + '_ {
        (0..SHARDS).filter(move |shard| self.touch(*shard))
    }

    /// Whether two different transactions with these pieces conflict at a shard: they share a key there, and not both pieces are reads.
    pub fn conflict_at(&self, other: &Pieces, shard: u32) -> bool {
        self.on(shard).any(|mine| {
            other.on(shard).any(|theirs| mine.key == theirs.key && (mine.kind != READ || theirs.kind != READ))
        })
    }
}

/// The same pieces: equal counts, and equal entries up to them.
impl PartialEq for Pieces {
    fn eq(&self, other: &Pieces) -> bool {
        self.count == other.count && self.entries() == other.entries()
    }
}

impl Eq for Pieces {}
