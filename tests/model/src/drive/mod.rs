//! The drive: it carries one transaction for one coordinator.

mod decide;
mod events;
mod form;
mod judge;

use crate::ballots::Vote;
use crate::cluster::{servers_of, SERVERS};
use crate::pieces::Pieces;
use crate::sets::Set;

pub use events::{again, due, move_on, recover, reply, start, Sending};
pub use form::keeps_form;

/// The phases.
pub const PREPARE: u32 = 0;
pub const PRE_ACCEPT: u32 = 1;
pub const ACCEPT: u32 = 2;
pub const COMMIT: u32 = 3;

/// What a server answered in this phase. An AcceptOK has neither part, a PreAcceptOK the word.
#[derive(Clone, Copy, Debug, Default, PartialEq, Eq)]
pub struct Answer {
    pub word: Option<u64>,
    pub accepted: Option<Vote>,
}

/// A drive of a state that a host lends, so each field may hold anything.
#[derive(Clone, Debug, Default, PartialEq, Eq)]
pub struct Drive {
    pub t: u32,
    pub coordinator: u32,
    pub ballot: u32,
    pub phase: u32,
    pub pieces: Pieces,
    /// The counted answers, by server.
    pub answers: [Option<Answer>; SERVERS as usize],
    /// The set of phases 2 and 3.
    pub set: Option<Set>,
    /// The highest promise seen, 0 if none.
    pub seen: u32,
}

impl Drive {
    /// Every server of T's shards: those that the drive addresses, and whose answers it counts.
    pub fn addressed(&self) -> impl Iterator<Item = u32> + '_ {
        self.pieces.shards().flat_map(servers_of)
    }

    pub fn answer(&self, server: u32) -> Option<Answer> {
        self.answers[server as usize]
    }

    pub fn counted(&self, server: u32) -> bool {
        self.answer(server).is_some()
    }

    /// The counted answers from a shard, by rising server.
    pub fn answers_from(&self, shard: u32) -> impl Iterator<Item = Answer> + '_ {
        servers_of(shard).filter_map(move |server| self.answer(server))
    }

    /// All servers of T's shards answered.
    pub fn all_answered(&self) -> bool {
        self.addressed().all(|server| self.counted(server))
    }

    /// Two answers in each of T's shards.
    pub fn two_in_each(&self) -> bool {
        self.pieces.shards().all(|shard| self.answers_from(shard).count() >= 2)
    }

    /// Goes to a phase, with no answers counted.
    fn enter(&mut self, phase: u32, set: Option<Set>) {
        self.phase = phase;
        self.set = set;
        self.answers = Default::default();
    }
}
