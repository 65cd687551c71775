//! Messages of a code with fields by chance, small and extreme ones as well as any, and damage to their bytes.

use chance::Chance;
use model::{Message, Piece, Pieces, Set, Value, Values, Vote};

pub fn message(chance: &mut Chance, code: u32) -> Message {
    let t = number(chance);
    let server = number(chance);
    let ballot = number(chance);
    match code {
        0 => Message::PreAccept { t, ballot, pieces: pieces(chance) },
        1 => Message::Accept { t, ballot, pieces: pieces(chance), set: set(chance) },
        2 => Message::Commit { t, pieces: pieces(chance), set: set(chance) },
        3 => Message::Prepare { t, ballot, pieces: pieces(chance) },
        4 => Message::Inquire { t },
        5 => Message::Fetch { t },
        16 => Message::PreAcceptOk { t, server, ballot, word: word(chance) },
        17 => Message::AcceptOk { t, server, ballot },
        18 => Message::CommitOk { t, server, ran: number(chance) },
        19 => Message::PrepareOk { t, server, ballot, arrival: arrival(chance), accepted: accepted(chance) },
        20 => Message::Done { t, pieces: pieces(chance), set: set(chance) },
        21 => Message::Behind { t, server, asked: ballot, promise: number(chance) },
        22 => Message::NotYet { t, server },
        _ => Message::Results { t, server, values: values(chance) },
    }
}

fn number(chance: &mut Chance) -> u32 {
    match chance.below(4) {
        0 => chance.pick(&[0, 1, 7, 8, 63, 64, 255, 256, 65_535, 65_536, 1 << 31, u32::MAX]),
        1 => chance.word() as u32,
        _ => chance.below(64),
    }
}

fn word(chance: &mut Chance) -> u64 {
    match chance.below(4) {
        0 => chance.pick(&[0, 1, 256, 1 << 31, 1 << 32, 1 << 63, u64::MAX]),
        _ => chance.word(),
    }
}

fn set(chance: &mut Chance) -> Set {
    Set([word(chance), word(chance), word(chance), word(chance)])
}

fn arrival(chance: &mut Chance) -> Option<u64> {
    chance.percent(50).then(|| word(chance))
}

fn accepted(chance: &mut Chance) -> Option<Vote> {
    chance.percent(50).then(|| Vote { ballot: number(chance), set: set(chance) })
}

fn pieces(chance: &mut Chance) -> Pieces {
    let list: Vec<Piece> = (0..chance.below(9))
        .map(|_| Piece {
            shard: number(chance),
            key: number(chance),
            kind: number(chance),
            operand: number(chance) as i32,
        })
        .collect();
    Pieces::of(&list)
}

fn values(chance: &mut Chance) -> Values {
    let list: Vec<Value> =
        (0..chance.below(9)).map(|_| Value { value: number(chance) as i32, kept: chance.percent(50) }).collect();
    Values::of(&list)
}

/// Every truncation, bytes added, every single bit turned, and each byte replaced by another.
pub fn damaged(chance: &mut Chance, bytes: &[u8]) -> Vec<Vec<u8>> {
    let mut all: Vec<Vec<u8>> = (0..bytes.len()).map(|end| bytes[..end].to_vec()).collect();
    all.extend((1..=9).map(|more| [bytes, &vec![chance.word() as u8; more]].concat()));
    for place in 0..bytes.len() {
        let mut changed = |to: u8| {
            let mut copy = bytes.to_vec();
            copy[place] = to;
            all.push(copy);
        };
        (0..8).for_each(|bit| changed(bytes[place] ^ 1 << bit));
        changed(chance.word() as u8);
    }
    all
}

/// Bytes of no message in particular, most of which begin with a code.
pub fn noise(chance: &mut Chance) -> Vec<u8> {
    let words = chance.below(50);
    let mut bytes: Vec<u8> = chance.pick(&Message::CODES).to_be_bytes().to_vec();
    for _ in 0..words {
        let small = chance.below(10);
        let item = if chance.percent(70) { small } else { number(chance) };
        bytes.extend(item.to_be_bytes());
    }
    let cut = if chance.percent(20) { chance.below(bytes.len() as u32 + 1) } else { 0 };
    bytes.truncate(bytes.len() - cut as usize);
    bytes
}
