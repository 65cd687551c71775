//! A message as the steps of a server or a drive write it: the engine is lent a state in which it has just this message to send.
//! So a library that exports steps alone has its codec seen as well.

use chance::Chance;
use engine::{ask, due, image, Lent};
use model::cluster::{only, origin, shard_of, NUMBERS};
use model::server::Record;
use model::{ballots, codec, Drive, Message, Piece, Pieces, Server, Set, Value, Values, Vote};

/// The codes that a server answers with or that a drive sends.
pub const CODES: [u32; 12] = [0, 1, 2, 3, 16, 17, 18, 19, 20, 21, 22, 23];

/// A message that a step can write: every number in its range.
pub fn message(chance: &mut Chance, code: u32) -> Message {
    let t = chance.below(64);
    let server = chance.below(12);
    let ballot = ballot(chance);
    let shard = chance.below(4);
    let pieces = pieces(chance, shard);
    let set = set(chance, t, &pieces);
    let word = chance.word() & !(1 << t);
    match code {
        0 => Message::PreAccept { t, ballot, pieces },
        1 => Message::Accept { t, ballot, pieces, set },
        2 => Message::Commit { t, pieces, set },
        3 => Message::Prepare { t, ballot: ballot.max(8), pieces },
        16 => Message::PreAcceptOk { t, server, ballot, word },
        17 => Message::AcceptOk { t, server, ballot },
        18 => Message::CommitOk { t, server, ran: chance.below(65) },
        19 => {
            let arrival = chance.percent(50).then(|| word);
            let set = Set::EMPTY.with(shard_of(server), word);
            let accepted = chance.percent(50).then(|| Vote { ballot, set });
            Message::PrepareOk { t, server, ballot: ballot.max(8), arrival, accepted }
        }
        20 => Message::Done { t, pieces, set },
        21 => Message::Behind { t, server, asked: 0, promise: ballot.max(8) },
        22 => Message::NotYet { t, server },
        _ => Message::Results { t, server, values: values(chance) },
    }
}

fn ballot(chance: &mut Chance) -> u32 {
    chance.pick(&[0, 8, 9, 255, 256, 4_660, 65_535])
}

/// One to eight good pieces, of which the first is on a shard.
fn pieces(chance: &mut Chance, shard: u32) -> Pieces {
    let list: Vec<Piece> = (0..chance.between(1, 8))
        .map(|n| Piece { shard: (shard + n / 4).min(3), key: 2 * n, kind: 2, operand: chance.word() as i32 })
        .collect();
    Pieces::of(&list)
}

fn set(chance: &mut Chance, t: u32, pieces: &Pieces) -> Set {
    pieces.shards().fold(Set::EMPTY, |set, shard| set.with(shard, chance.word() & !(1 << t)))
}

fn values(chance: &mut Chance) -> Values {
    let list: Vec<Value> =
        (0..chance.below(9)).map(|_| Value { value: chance.word() as i32, kept: chance.percent(50) }).collect();
    Values::of(&list)
}

/// The bytes of a message, written by the step that sends it.
pub fn encode<E: Lent>(engine: &E, message: &Message) -> Vec<u8> {
    match *message {
        Message::PreAccept { t, ballot, pieces } => sent(engine, drive(t, ballot, 1, pieces, None)),
        Message::Accept { t, ballot, pieces, set } => sent(engine, drive(t, ballot, 2, pieces, Some(set))),
        Message::Commit { t, pieces, set } => sent(engine, drive(t, 8, 3, pieces, Some(set))),
        Message::Prepare { t, ballot, pieces } => sent(engine, drive(t, ballot, 0, pieces, None)),
        _ => answered(engine, message),
    }
}

fn drive(t: u32, ballot: u32, phase: u32, pieces: Pieces, set: Option<Set>) -> Drive {
    let coordinator = if ballot == 0 { origin(t) } else { ballot % ballots::STEP };
    Drive { t, coordinator, ballot, phase, pieces, set, ..Drive::default() }
}

fn sent<E: Lent>(engine: &E, drive: Drive) -> Vec<u8> {
    due(engine, &engine.lend_drive(&image::drive_image(&drive))).expect("a drive in form has something due").0
}

/// Lends a server that holds what the answer says, and asks for it.
fn answered<E: Lent>(engine: &E, answer: &Message) -> Vec<u8> {
    let (t, server) = (answer.t(), answer.server().unwrap_or(0));
    let one = Pieces::of(&[Piece { shard: shard_of(server), key: 0, kind: 2, operand: 1 }]);
    let held = Record { pieces: Some(one), ..Record::default() };
    let (record, question) = match *answer {
        Message::PreAcceptOk { ballot, word, .. } => {
            (Record { arrival: Some(word), ..held }, Message::PreAccept { t, ballot, pieces: one })
        }
        Message::AcceptOk { ballot, .. } => (held, Message::Accept { t, ballot, pieces: one, set: Set::EMPTY }),
        Message::CommitOk { ran, .. } => {
            let waits_for = if ran == 0 { only((t + 1) % NUMBERS) } else { 0 };
            (held, Message::Commit { t, pieces: one, set: Set::EMPTY.with(shard_of(server), waits_for) })
        }
        Message::PrepareOk { ballot, arrival, accepted, .. } => {
            (Record { arrival, accepted, ..held }, Message::Prepare { t, ballot, pieces: one })
        }
        Message::Done { pieces, set, .. } => {
            (Record { pieces: Some(pieces), committed: Some(set), ..Record::default() }, Message::Inquire { t })
        }
        Message::Behind { asked, promise, .. } => {
            (Record { promise, ..held }, Message::PreAccept { t, ballot: asked, pieces: one })
        }
        Message::Results { values, .. } => (ran(shard_of(server), values), Message::Fetch { t }),
        _ => (held, Message::Inquire { t }),
    };
    let mut lent = Server::fresh(server).expect("a server of the cluster");
    lent.records[t as usize] = record;
    if record.results.is_some() {
        (lent.log.list[0], lent.log.count) = (t, 1);
    }
    if let Message::CommitOk { ran, .. } = *answer {
        // The others that run with T are ready in the lent server.
        for more in 1..ran {
            lent.records[((t + more) % NUMBERS) as usize] = Record { committed: Some(Set::EMPTY), ..held };
        }
    }
    let question = codec::bytes_of(&question).expect("a question encodes");
    ask(engine, &mut engine.lend_server(&image::server_image(&lent)), &question).expect("the question is answered")
}

/// A number that ran with these results: as many pieces on the shard, or one elsewhere if there are none.
fn ran(shard: u32, values: Values) -> Record {
    let piece = |shard, key| Piece { shard, key, kind: 2, operand: 1 };
    let list: Vec<Piece> = match values.count {
        0 => vec![piece((shard + 1) % 4, 0)],
        many => (0..many).map(|key| piece(shard, key)).collect(),
    };
    let pieces = Some(Pieces::of(&list));
    Record { pieces, committed: Some(Set::EMPTY), results: Some(values), ..Record::default() }
}
