//! What a server does with a message that it doesn't refuse.

use super::judge::judge;
use super::Server;
use crate::ballots::Vote;
use crate::cluster::only;
use crate::message::Message;
use crate::pieces::Pieces;
use crate::refusal::Refusal;
use crate::run::until_0;
use crate::sets::Set;

/// Takes a message and answers it. A refusal changes nothing.
pub fn step(server: &mut Server, message: &Message) -> Result<Message, Refusal> {
    judge(server, message)?;
    Ok(match *message {
        Message::PreAccept { t, ballot, ref pieces } => {
            promise(server, t, ballot, pieces).unwrap_or_else(|| pre_accept(server, t, ballot))
        }
        Message::Accept { t, ballot, ref pieces, ref set } => {
            promise(server, t, ballot, pieces).unwrap_or_else(|| accept(server, t, ballot, set))
        }
        Message::Prepare { t, ballot, ref pieces } => {
            promise(server, t, ballot, pieces).unwrap_or_else(|| prepare(server, t, ballot))
        }
        Message::Commit { t, ref pieces, ref set } | Message::Done { t, ref pieces, ref set } => {
            commit(server, t, pieces, set)
        }
        Message::Fetch { t } => fetch(server, t),
        _ => inquire(server, message.t()),
    })
}

/// What PreAccept, Accept and Prepare begin with. A committed number is answered Done, a promise above the ballot Behind, and nothing changes. Otherwise the promise becomes the ballot, the pieces are held, and there is no answer yet.
fn promise(server: &mut Server, t: u32, ballot: u32, pieces: &Pieces) -> Option<Message> {
    if let Some(done) = done(server, t) {
        return Some(done);
    }
    let id = server.id;
    let record = server.record_mut(t);
    if record.promise > ballot {
        return Some(Message::Behind { t, server: id, asked: ballot, promise: record.promise });
    }
    record.promise = ballot;
    record.pieces = Some(*pieces);
    None
}

/// Fixes the arrival set if there is none, and answers it. It never changes again, and anything accepted stays.
fn pre_accept(server: &mut Server, t: u32, ballot: u32) -> Message {
    let word = match server.record(t).arrival {
        Some(word) => word,
        None => conflicting_arrivals(server, t),
    };
    server.record_mut(t).arrival = Some(word);
    Message::PreAcceptOk { t, server: server.id, ballot, word }
}

/// All numbers with an arrival set here that conflict with T at this shard.
fn conflicting_arrivals(server: &Server, t: u32) -> u64 {
    let shard = server.shard();
    let conflicts = |other: &Pieces| server.record(t).pieces.map_or(false, |mine| mine.conflict_at(other, shard));
    server
        .numbered()
        .filter(|(u, record)| *u != t && record.arrival.is_some())
        .filter(|(_, record)| record.pieces.as_ref().map_or(false, conflicts))
        .fold(0, |word, (u, _)| word | only(u))
}

/// Holds ballot and set as accepted.
fn accept(server: &mut Server, t: u32, ballot: u32, set: &Set) -> Message {
    server.record_mut(t).accepted = Some(Vote { ballot, set: *set });
    Message::AcceptOk { t, server: server.id, ballot }
}

/// Answers what arrived and what is accepted.
fn prepare(server: &Server, t: u32, ballot: u32) -> Message {
    let record = server.record(t);
    Message::PrepareOk { t, server: server.id, ballot, arrival: record.arrival, accepted: record.accepted }
}

/// Holds pieces and set as committed, runs until 0, and answers how many ran in all. A repeat with the same set changes nothing by itself, and what is ready runs all the same. It may come to a server that T doesn't touch.
fn commit(server: &mut Server, t: u32, pieces: &Pieces, set: &Set) -> Message {
    let record = server.record_mut(t);
    record.pieces = Some(*pieces);
    record.committed = Some(*set);
    let ran = until_0(server);
    Message::CommitOk { t, server: server.id, ran }
}

/// Done if committed, else NotYet.
fn inquire(server: &Server, t: u32) -> Message {
    done(server, t).unwrap_or(Message::NotYet { t, server: server.id })
}

/// The Results of the pieces on this shard once T has run, else NotYet.
fn fetch(server: &Server, t: u32) -> Message {
    match server.record(t).results {
        Some(values) => Message::Results { t, server: server.id, values },
        None => Message::NotYet { t, server: server.id },
    }
}

/// The Done of a committed number.
fn done(server: &Server, t: u32) -> Option<Message> {
    match (server.record(t).committed, server.record(t).pieces) {
        (Some(set), Some(pieces)) => Some(Message::Done { t, pieces, set }),
        _ => None,
    }
}
