//! Transactions by chance, that are in each other's way.

use chance::Chance;
use model::cluster::SHARDS;
use model::pieces::{ADD, MOST, PUT, READ};
use model::{Piece, Pieces};

/// Where the transactions of a history have their pieces.
#[derive(Clone, Debug)]
pub struct Ground {
    pub shards: Vec<u32>,
    pub keys: u32,
    pub most_pieces: u32,
    /// Of a hundred pieces, so many are reads.
    pub reads: u32,
}

/// Pieces on this ground, rising as they must be, at least one.
pub fn pieces(chance: &mut Chance, ground: &Ground) -> Pieces {
    let mut places: Vec<(u32, u32)> = Vec::new();
    for _ in 0..chance.between(1, ground.most_pieces) {
        places.push((chance.pick(&ground.shards), chance.below(ground.keys)));
    }
    places.sort_unstable();
    places.dedup();
    places.truncate(MOST);
    let list: Vec<Piece> = places.into_iter().map(|(shard, key)| piece(chance, ground, shard, key)).collect();
    Pieces::of(&list)
}

fn piece(chance: &mut Chance, ground: &Ground, shard: u32, key: u32) -> Piece {
    let kind = if chance.percent(ground.reads) { READ } else { chance.pick(&[PUT, ADD]) };
    let operand = if kind == READ { 0 } else { operand(chance, kind) };
    Piece { shard, key, kind, operand }
}

/// Most puts go to an end of the range and most adds a few steps up or down, so that counters are full, are met so, and are put back.
fn operand(chance: &mut Chance, kind: u32) -> i32 {
    let (way, steps) = (chance.below(100), chance.below(100) as i32);
    match (kind, way) {
        (_, 0..=9) => [i32::MIN, i32::MAX, -1, 1][steps as usize / 25],
        (PUT, 10..=39) => i32::MAX - steps / 10,
        (PUT, 40..=69) => i32::MIN + steps / 10,
        (ADD, 10..=54) => -steps,
        _ => steps,
    }
}

/// So many different transaction numbers.
pub fn numbers(chance: &mut Chance, many: usize) -> Vec<u32> {
    let mut all: Vec<u32> = (0..64).collect();
    chance.shuffle(&mut all);
    all.truncate(many);
    all
}

/// So many different shards.
pub fn some_shards(chance: &mut Chance, many: u32) -> Vec<u32> {
    let mut shards: Vec<u32> = (0..SHARDS).collect();
    chance.shuffle(&mut shards);
    shards.truncate(many as usize);
    shards
}
