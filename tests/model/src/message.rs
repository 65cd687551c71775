//! The fourteen messages.

use crate::ballots::Vote;
use crate::counters::Values;
use crate::pieces::Pieces;
use crate::sets::Set;

/// The fields stand in the order in which they are sent. Two messages are the same when their fields agree, arrays up to their counts.
#[derive(Clone, Copy, Debug, PartialEq, Eq)]
pub enum Message {
    PreAccept { t: u32, ballot: u32, pieces: Pieces },
    Accept { t: u32, ballot: u32, pieces: Pieces, set: Set },
    Commit { t: u32, pieces: Pieces, set: Set },
    Prepare { t: u32, ballot: u32, pieces: Pieces },
    Inquire { t: u32 },
    Fetch { t: u32 },
    PreAcceptOk { t: u32, server: u32, ballot: u32, word: u64 },
    AcceptOk { t: u32, server: u32, ballot: u32 },
    CommitOk { t: u32, server: u32, ran: u32 },
    PrepareOk { t: u32, server: u32, ballot: u32, arrival: Option<u64>, accepted: Option<Vote> },
    Done { t: u32, pieces: Pieces, set: Set },
    Behind { t: u32, server: u32, asked: u32, promise: u32 },
    NotYet { t: u32, server: u32 },
    Results { t: u32, server: u32, values: Values },
}

impl Message {
    pub const CODES: [u32; 14] = [0, 1, 2, 3, 4, 5, 16, 17, 18, 19, 20, 21, 22, 23];

    pub fn code(&self) -> u32 {
        match self {
            Message::PreAccept { .. } => 0,
            Message::Accept { .. } => 1,
            Message::Commit { .. } => 2,
            Message::Prepare { .. } => 3,
            Message::Inquire { .. } => 4,
            Message::Fetch { .. } => 5,
            Message::PreAcceptOk { .. } => 16,
            Message::AcceptOk { .. } => 17,
            Message::CommitOk { .. } => 18,
            Message::PrepareOk { .. } => 19,
            Message::Done { .. } => 20,
            Message::Behind { .. } => 21,
            Message::NotYet { .. } => 22,
            Message::Results { .. } => 23,
        }
    }

    /// The transaction number. Every message has one.
    pub fn t(&self) -> u32 {
        match *self {
            Message::PreAccept { t, .. }
            | Message::Accept { t, .. }
            | Message::Commit { t, .. }
            | Message::Prepare { t, .. }
            | Message::Inquire { t }
            | Message::Fetch { t }
            | Message::PreAcceptOk { t, .. }
            | Message::AcceptOk { t, .. }
            | Message::CommitOk { t, .. }
            | Message::PrepareOk { t, .. }
            | Message::Done { t, .. }
            | Message::Behind { t, .. }
            | Message::NotYet { t, .. }
            | Message::Results { t, .. } => t,
        }
    }

    /// The server that a reply names.
    pub fn server(&self) -> Option<u32> {
        match *self {
            Message::PreAcceptOk { server, .. }
            | Message::AcceptOk { server, .. }
            | Message::CommitOk { server, .. }
            | Message::PrepareOk { server, .. }
            | Message::Behind { server, .. }
            | Message::NotYet { server, .. }
            | Message::Results { server, .. } => Some(server),
            _ => None,
        }
    }

    /// The ballot asked for or answered, not a promise nor the ballot of an accepted set.
    pub fn ballot(&self) -> Option<u32> {
        match *self {
            Message::PreAccept { ballot, .. }
            | Message::Accept { ballot, .. }
            | Message::Prepare { ballot, .. }
            | Message::PreAcceptOk { ballot, .. }
            | Message::AcceptOk { ballot, .. }
            | Message::PrepareOk { ballot, .. } => Some(ballot),
            Message::Behind { asked, .. } => Some(asked),
            _ => None,
        }
    }

    pub fn pieces(&self) -> Option<&Pieces> {
        match self {
            Message::PreAccept { pieces, .. }
            | Message::Accept { pieces, .. }
            | Message::Commit { pieces, .. }
            | Message::Prepare { pieces, .. }
            | Message::Done { pieces, .. } => Some(pieces),
            _ => None,
        }
    }

    /// The set that a message proposes or reports as committed.
    pub fn set(&self) -> Option<&Set> {
        match self {
            Message::Accept { set, .. } | Message::Commit { set, .. } | Message::Done { set, .. } => Some(set),
            _ => None,
        }
    }

    /// Whether one of its arrays has a count above eight.
    pub fn too_many(&self) -> bool {
        match self {
            Message::Results { values, .. } => values.too_many(),
            _ => self.pieces().map_or(false, Pieces::too_many),
        }
    }
}
