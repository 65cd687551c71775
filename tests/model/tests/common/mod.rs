//! What the tests of the model share: short ways to write pieces, sets and messages.
#![allow(dead_code)]

use chance::Chance;
use model::{Message, Piece, Pieces, Refusal, Server, Set};

/// Pieces in the notation (shard, key, kind, operand).
pub fn pieces(list: &[(u32, u32, u32, i32)]) -> Pieces {
    let list: Vec<Piece> =
        list.iter().map(|&(shard, key, kind, operand)| Piece { shard, key, kind, operand }).collect();
    Pieces::of(&list)
}

pub fn set(words: [u64; 4]) -> Set {
    Set(words)
}

pub fn fresh(id: u32) -> Server {
    Server::fresh(id).unwrap()
}

/// Lets a server take a message, which it must not refuse.
pub fn take(server: &mut Server, message: Message) -> Message {
    model::server::step(server, &message).unwrap()
}

/// The number by which a server refuses a message. It must change nothing.
pub fn refused(server: &mut Server, message: Message) -> u32 {
    let before = server.clone();
    let refusal = model::server::step(server, &message).unwrap_err();
    assert_eq!(*server, before);
    number(refusal)
}

pub fn number(refusal: Refusal) -> u32 {
    refusal.number()
}

/// Lets a server take a Commit, which it must not refuse. Gives the count that ran.
pub fn commit(server: &mut Server, t: u32, pieces: Pieces, words: [u64; 4]) -> u32 {
    count(server.id, t, take(server, Message::Commit { t, pieces, set: set(words) }))
}

/// The count of a CommitOK of this server for T.
pub fn count(id: u32, t: u32, answer: Message) -> u32 {
    match answer {
        Message::CommitOk { t: of, server, ran } if (of, server) == (t, id) => ran,
        other => panic!("T{t} at server {id} was answered {other:?}"),
    }
}

/// Holds pieces and set as committed, and runs nothing: so a lent server may have numbers that are ready.
pub fn hold_committed(server: &mut Server, t: u32, pieces: Pieces, words: [u64; 4]) {
    let record = server.record_mut(t);
    record.pieces = Some(pieces);
    record.committed = Some(set(words));
}

/// The numbers of the graphs by chance.
pub const FEW: u32 = 12;

/// Pieces of T at shards 0 and 1, always the same ones.
pub fn pieces_of(t: u32) -> Pieces {
    pieces(&[(0, t % 3, 2, t as i32), (1, 0, 1, 0)])
}

/// A set for T that names a few of the other numbers.
pub fn words_by_chance(chance: &mut Chance, t: u32) -> [u64; 4] {
    let density = chance.below(4);
    let named = (0..FEW).filter(|u| *u != t && chance.below(10) < density).fold(0, |word, u| word | 1u64 << u);
    [named, named >> 3 & !(1 << t), 0, 0]
}

/// A lent server with some of twelve numbers committed, each after a few of the others, of which none ran.
pub fn by_chance(chance: &mut Chance) -> Server {
    let mut server = fresh(0);
    for t in (0..FEW).filter(|_| chance.percent(80)).collect::<Vec<_>>() {
        let words = words_by_chance(chance, t);
        hold_committed(&mut server, t, pieces_of(t), words);
    }
    server
}

pub fn pre_accepted(server: &mut Server, t: u32, ballot: u32, pieces: Pieces) -> Message {
    take(server, Message::PreAccept { t, ballot, pieces })
}
