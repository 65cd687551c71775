//! Between the lent memory and the model's state. What the memory ignores, the model doesn't have, and it comes back as 0; a flag or mark that is set comes back as 1.

use crate::{layout, Ledger};
use model::drive::Answer;
use model::server::{Log, Record};
use model::{Counter, Drive, Piece, Pieces, Server, Set, Value, Values, Vote};

pub fn pieces(image: &layout::Pieces) -> Pieces {
    let piece = |p: layout::Piece| Piece { shard: p.shard, key: p.key, kind: p.kind, operand: p.operand };
    Pieces { count: image.count, list: image.list.map(piece) }
}

pub fn pieces_image(pieces: &Pieces) -> layout::Pieces {
    let mut image = layout::Pieces { count: pieces.count, ..Default::default() };
    for (to, p) in image.list.iter_mut().zip(pieces.entries()) {
        *to = layout::Piece { shard: p.shard, key: p.key, kind: p.kind, operand: p.operand };
    }
    image
}

pub fn set(image: &layout::Set) -> Set {
    Set([image.w0, image.w1, image.w2, image.w3])
}

pub fn set_image(set: &Set) -> layout::Set {
    let [w0, w1, w2, w3] = set.0;
    layout::Set { w0, w1, w2, w3 }
}

fn maybe<T>(some: u32, item: T) -> Option<T> {
    if some == 0 {
        None
    } else {
        Some(item)
    }
}

pub fn word(image: &layout::MaybeWord) -> Option<u64> {
    maybe(image.some, image.word)
}

pub fn word_image(word: Option<u64>) -> layout::MaybeWord {
    word.map_or(Default::default(), |word| layout::MaybeWord { some: 1, word })
}

pub fn vote(image: &layout::MaybeVote) -> Option<Vote> {
    maybe(image.some, Vote { ballot: image.ballot, set: set(&image.set) })
}

pub fn vote_image(vote: Option<Vote>) -> layout::MaybeVote {
    vote.map_or(Default::default(), |v| layout::MaybeVote { some: 1, ballot: v.ballot, set: set_image(&v.set) })
}

fn maybe_set(image: &layout::MaybeSet) -> Option<Set> {
    maybe(image.some, set(&image.set))
}

fn maybe_set_image(set: Option<Set>) -> layout::MaybeSet {
    set.map_or(Default::default(), |set| layout::MaybeSet { some: 1, set: set_image(&set) })
}

pub fn values(image: &layout::Values) -> Values {
    let value = |v: layout::Value| Value { value: v.value, kept: v.kept != 0 };
    Values { count: image.count, list: image.list.map(value) }
}

pub fn value_image(value: &Value) -> layout::Value {
    layout::Value { value: value.value, kept: value.kept.into() }
}

pub fn values_image(values: &Values) -> layout::Values {
    let mut image = layout::Values { count: values.count, ..Default::default() };
    for (to, value) in image.list.iter_mut().zip(values.entries()) {
        *to = value_image(value);
    }
    image
}

fn record(image: &layout::Record) -> Record {
    Record {
        pieces: maybe(image.pieces.count, pieces(&image.pieces)),
        promise: image.promise,
        arrival: word(&image.arrival),
        accepted: vote(&image.accepted),
        committed: maybe_set(&image.committed),
        results: maybe(image.ran, values(&image.values)),
    }
}

fn record_image(record: &Record) -> layout::Record {
    layout::Record {
        pieces: record.pieces.as_ref().map_or(Default::default(), pieces_image),
        promise: record.promise,
        arrival: word_image(record.arrival),
        accepted: vote_image(record.accepted),
        committed: maybe_set_image(record.committed),
        ran: record.results.is_some().into(),
        values: record.results.as_ref().map_or(Default::default(), values_image),
    }
}

/// The mark in memory is a number: 0 is none, any other is set.
fn counter(image: layout::Counter) -> Counter {
    Counter { value: image.value, full: image.full != 0 }
}

fn counter_image(counter: Counter) -> layout::Counter {
    layout::Counter { value: counter.value, full: counter.full.into() }
}

pub fn ledger(image: &layout::Server) -> Ledger {
    let committed = std::array::from_fn(|t| maybe_set(&image.records[t].committed));
    Ledger { committed, log: Log { count: image.log.count, list: image.log.list } }
}

pub fn server(image: &layout::Server) -> Server {
    let records = std::array::from_fn(|t| record(&image.records[t]));
    let log = Log { count: image.log.count, list: image.log.list };
    Server { id: image.id, records, counters: image.counters.list.map(counter), log }
}

pub fn server_image(server: &Server) -> layout::Server {
    let mut log = layout::Log { list: [0; 64], count: server.log.count };
    let logged = server.log.entries();
    log.list[..logged.len()].copy_from_slice(logged);
    let counters = layout::Counters { list: server.counters.map(counter_image) };
    let records = std::array::from_fn(|t| record_image(&server.records[t]));
    layout::Server { id: server.id, records, counters, log }
}

pub fn drive(image: &layout::Drive) -> Drive {
    let answer = |a: layout::Slot| maybe(a.counted, Answer { word: word(&a.arrival), accepted: vote(&a.accepted) });
    Drive {
        t: image.t,
        coordinator: image.coordinator,
        ballot: image.ballot,
        phase: image.phase,
        pieces: pieces(&image.pieces),
        answers: image.answers.map(answer),
        set: maybe_set(&image.chosen),
        seen: image.seen,
    }
}

pub fn drive_image(drive: &Drive) -> layout::Drive {
    let answer = |answer: Option<Answer>| {
        answer.map_or(Default::default(), |a| layout::Slot {
            counted: 1,
            arrival: word_image(a.word),
            accepted: vote_image(a.accepted),
        })
    };
    layout::Drive {
        t: drive.t,
        coordinator: drive.coordinator,
        ballot: drive.ballot,
        phase: drive.phase,
        pieces: pieces_image(&drive.pieces),
        answers: drive.answers.map(answer),
        chosen: maybe_set_image(drive.set),
        seen: drive.seen,
    }
}
