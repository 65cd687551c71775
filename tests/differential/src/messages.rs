//! Messages aimed at a state: most of them meet what it holds, and some miss it by one rule.

use crate::values::{ballot, edge, number, pieces, set, usual_pieces, word};
use chance::Chance;
use engine::LONGEST;
use model::{codec, Drive, Message, Pieces, Server, Set, Value, Values, Vote};

/// The bytes of a message for a server, now and then damaged.
pub fn for_server(chance: &mut Chance, server: &Server) -> Vec<u8> {
    let message = if chance.percent(3) { any(chance) } else { aimed_at_server(chance, server) };
    bytes(chance, &message)
}

/// The bytes of a message for a drive, now and then damaged.
pub fn for_drive(chance: &mut Chance, drive: &Drive) -> Vec<u8> {
    let message = if chance.percent(5) { any(chance) } else { aimed_at_drive(chance, drive) };
    bytes(chance, &message)
}

fn aimed_at_server(chance: &mut Chance, server: &Server) -> Message {
    let t = number(chance);
    let record = if t < 64 { *server.record(t) } else { Default::default() };
    let held = record.pieces.filter(|held| held.keep_rules() && chance.percent(85));
    let pieces = held.unwrap_or_else(|| pieces(chance, t));
    let ballot = if chance.percent(30) { record.promise } else { ballot(chance) };
    let set = match record.committed {
        Some(committed) if chance.percent(60) => committed,
        _ => set(chance, t, &pieces),
    };
    match chance.below(7) {
        0 => Message::PreAccept { t, ballot, pieces },
        1 => Message::Accept { t, ballot, pieces, set },
        2 => Message::Commit { t, pieces, set },
        3 => Message::Prepare { t, ballot, pieces },
        4 => Message::Inquire { t },
        5 => Message::Fetch { t },
        _ => Message::Done { t, pieces, set },
    }
}

fn aimed_at_drive(chance: &mut Chance, drive: &Drive) -> Message {
    let t = if chance.percent(96) { drive.t } else { number(chance) };
    let server = server_for(chance, drive);
    let ballot = if chance.percent(94) { drive.ballot } else { ballot(chance) };
    let code = match (chance.below(10), drive.phase) {
        (0, _) => 20,
        (1, _) => 21,
        (2, _) => chance.pick(&[16, 17, 19]),
        (_, 0) => 19,
        (_, 1) => 16,
        _ => 17,
    };
    let own = if t < 64 && chance.percent(97) { !(1u64 << t) } else { u64::MAX };
    match code {
        16 => Message::PreAcceptOk { t, server, ballot, word: some_word(chance) & own },
        17 => Message::AcceptOk { t, server, ballot },
        19 => {
            let arrival = chance.percent(80).then(|| some_word(chance) & own);
            Message::PrepareOk { t, server, ballot, arrival, accepted: vote(chance, t, &drive.pieces) }
        }
        20 => {
            let pieces = if chance.percent(80) { drive.pieces } else { pieces(chance, t) };
            let pieces = if pieces.too_many() { Pieces::default() } else { pieces };
            Message::Done { t, pieces, set: set(chance, t, &pieces) }
        }
        _ => Message::Behind { t, server, asked: ballot, promise: self::ballot(chance) },
    }
}

/// A word that is often the same, so that words of a shard are often equal.
fn some_word(chance: &mut Chance) -> u64 {
    if chance.percent(70) {
        chance.pick(&[0, 2])
    } else {
        word(chance)
    }
}

fn vote(chance: &mut Chance, t: u32, pieces: &Pieces) -> Option<Vote> {
    chance.percent(25).then(|| Vote { ballot: ballot(chance), set: set(chance, t, pieces) })
}

/// A server that the drive waits for, most times.
fn server_for(chance: &mut Chance, drive: &Drive) -> u32 {
    let waited: Vec<u32> = (0..12).filter(|s| drive.pieces.touch(s / 3) && !drive.counted(*s)).collect();
    if waited.is_empty() || chance.percent(10) {
        return if chance.percent(80) { chance.below(12) } else { edge(chance) };
    }
    chance.pick(&waited)
}

/// A message of any code.
fn any(chance: &mut Chance) -> Message {
    let (t, server, ballot) = (number(chance), edge(chance), ballot(chance));
    let pieces = usual_pieces(t);
    let set = Set([word(chance), word(chance), word(chance), word(chance)]);
    let values = Values::of(&[Value { value: edge(chance) as i32, kept: chance.percent(50) }]);
    match chance.pick(&Message::CODES) {
        0 => Message::PreAccept { t, ballot, pieces },
        1 => Message::Accept { t, ballot, pieces, set },
        2 => Message::Commit { t, pieces, set },
        3 => Message::Prepare { t, ballot, pieces },
        4 => Message::Inquire { t },
        5 => Message::Fetch { t },
        16 => Message::PreAcceptOk { t, server, ballot, word: word(chance) },
        17 => Message::AcceptOk { t, server, ballot },
        18 => Message::CommitOk { t, server, ran: edge(chance) },
        19 => Message::PrepareOk { t, server, ballot, arrival: None, accepted: Some(Vote { ballot, set }) },
        20 => Message::Done { t, pieces, set },
        21 => Message::Behind { t, server, asked: ballot, promise: edge(chance) },
        22 => Message::NotYet { t, server },
        _ => Message::Results { t, server, values },
    }
}

/// The bytes of a message, now and then cut, lengthened or changed in one byte.
fn bytes(chance: &mut Chance, message: &Message) -> Vec<u8> {
    let mut bytes = codec::bytes_of(message).unwrap_or_default();
    let end = bytes.len() as u32;
    match chance.below(40) {
        0 => bytes.truncate(chance.below(end + 1) as usize),
        1 => bytes.extend(vec![chance.word() as u8; 1 + chance.below(8) as usize]),
        2 if end > 0 => bytes[chance.below(end) as usize] = chance.word() as u8,
        3 if end >= 12 => bytes[8 + 3 * (chance.below(2) as usize)] ^= 1 << chance.below(8),
        _ => {}
    }
    bytes
}

/// Room for an answer: most times enough, now and then a little less or more than a message needs.
pub fn room(chance: &mut Chance) -> usize {
    match chance.below(10) {
        0 => chance.below(LONGEST as u32 + 30) as usize,
        1 => 8 * chance.below(6) as usize,
        _ => LONGEST,
    }
}
