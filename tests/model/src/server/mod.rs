//! One server: what it holds, its form, its refusals, and what it does with a message.

mod form;
mod judge;
mod step;

use crate::ballots::Vote;
use crate::cluster::{shard_of, NUMBERS, SERVERS};
use crate::counters::{Counter, Counters, Values};
use crate::pieces::{Pieces, KEYS};
use crate::refusal::{refuse_if, Refusal};
use crate::sets::Set;

pub use form::keeps_form;
pub use step::step;

/// Held per number.
#[derive(Clone, Copy, Debug, Default, PartialEq, Eq)]
pub struct Record {
    /// Pieces or none.
    pub pieces: Option<Pieces>,
    /// The promised ballot, at first 0.
    pub promise: u32,
    /// The arrival set or none: one word, that of the server's own shard.
    pub arrival: Option<u64>,
    /// The accepted ballot and dependency set, or none.
    pub accepted: Option<Vote>,
    /// The committed dependency set, or none.
    pub committed: Option<Set>,
    /// The results of what ran.
    pub results: Option<Values>,
}

/// The numbers run, in order: the first `count` of the list.
#[derive(Clone, Copy, Debug)]
pub struct Log {
    pub count: u32,
    pub list: [u32; NUMBERS as usize],
}

impl Log {
    pub const EMPTY: Log = Log { count: 0, list: [0; NUMBERS as usize] };

    pub fn entries(&self) -> &[u32] {
        &self.list[..self.list.len().min(self.count as usize)]
    }
}

impl PartialEq for Log {
    fn eq(&self, other: &Log) -> bool {
        self.count == other.count && self.entries() == other.entries()
    }
}

impl Eq for Log {}

#[derive(Clone, Debug, PartialEq, Eq)]
pub struct Server {
    pub id: u32,
    pub records: [Record; NUMBERS as usize],
    pub counters: Counters,
    pub log: Log,
}

impl Server {
    /// A server that has seen nothing.
    pub fn fresh(id: u32) -> Result<Server, Refusal> {
        refuse_if(id >= SERVERS, Refusal::OutOfRange)?;
        let counters = [Counter::default(); KEYS as usize];
        Ok(Server { id, records: [Record::default(); NUMBERS as usize], counters, log: Log::EMPTY })
    }

    pub fn shard(&self) -> u32 {
        shard_of(self.id)
    }

    pub fn record(&self, t: u32) -> &Record {
        &self.records[t as usize]
    }

    pub fn record_mut(&mut self, t: u32) -> &mut Record {
        &mut self.records[t as usize]
    }

    /// Every record with its number.
    pub fn numbered(&self) -> impl Iterator<Item = (u32, &Record)> {
        (0..NUMBERS).zip(self.records.iter())
    }
}
