//! Running: what is before what, the ready numbers, a run, a run until 0, and the wanted set.

use crate::cluster::{has, numbers_in, only, NUMBERS};
use crate::counters::do_pieces;
use crate::refusal::{refuse_if, Refusal};
use crate::server::{keeps_form, Server};
use crate::sets::Set;

/// Runs the lowest ready number, with those that are before it and after it both. Answers how many ran, 0 if none is ready.
pub fn run(server: &mut Server) -> Result<u32, Refusal> {
    refuse_if(!keeps_form(server), Refusal::BrokenForm)?;
    Ok(run_once(server))
}

/// Runs until 0, and answers how many ran in all. No closed number is then left unrun.
pub fn run_all(server: &mut Server) -> Result<u32, Refusal> {
    refuse_if(!keeps_form(server), Refusal::BrokenForm)?;
    Ok(until_0(server))
}

/// The runs of a server that keeps its form, until one runs nothing; how many ran in all.
pub fn until_0(server: &mut Server) -> u32 {
    let mut many = 0;
    loop {
        match run_once(server) {
            0 => return many,
            more => many += more,
        }
    }
}

/// In word k, each uncommitted number in word k of the set of any committed one.
pub fn wanted(server: &Server) -> Result<Set, Refusal> {
    refuse_if(!keeps_form(server), Refusal::BrokenForm)?;
    let committed = committed_word(server);
    let mut wanted = Set::EMPTY;
    for set in server.records.iter().filter_map(|record| record.committed) {
        for (word, named) in wanted.0.iter_mut().zip(set.0) {
            *word |= named & !committed;
        }
    }
    Ok(wanted)
}

fn run_once(server: &mut Server) -> u32 {
    let waits = Waits::of(server);
    match (0..NUMBERS).find(|t| waits.ready(*t)) {
        None => 0,
        Some(t) => {
            let group = waits.group(t);
            numbers_in(group).for_each(|u| execute(server, u));
            group.count_ones()
        }
    }
}

/// Runs one number: its pieces here, in their order, its results and its place in the log. One without pieces here is logged too.
pub fn execute(server: &mut Server, t: u32) {
    let shard = server.shard();
    let pieces = server.record(t).pieces.unwrap_or_default();
    let values = do_pieces(&mut server.counters, &pieces, shard);
    server.record_mut(t).results = Some(values);
    server.log.list[server.log.count as usize] = t;
    server.log.count += 1;
}

/// What each number of a server waits for.
pub struct Waits {
    /// For each T the numbers before it.
    before: [u64; NUMBERS as usize],
    committed: u64,
    ran: u64,
}

impl Waits {
    /// U is before T if U is in a word of T's committed set, or is before such a number by its committed set.
    pub fn of(server: &Server) -> Waits {
        let mut before = [0; NUMBERS as usize];
        for (row, record) in before.iter_mut().zip(&server.records) {
            *row = record.committed.map_or(0, |set| set.all());
        }
        for through in 0..NUMBERS {
            let behind = before[through as usize];
            for row in before.iter_mut().filter(|row| has(**row, through)) {
                *row |= behind;
            }
        }
        let ran = server.log.entries().iter().fold(0, |word, t| word | only(*t));
        Waits { before, committed: committed_word(server), ran }
    }

    pub fn before(&self, t: u32) -> u64 {
        self.before[t as usize]
    }

    /// T and all before it are committed here.
    pub fn closed(&self, t: u32) -> bool {
        (only(t) | self.before(t)) & !self.committed == 0
    }

    /// Closed, not yet run, and every U before T has run, unless T is also before U.
    pub fn ready(&self, t: u32) -> bool {
        let unrun = self.before(t) & !self.ran;
        self.closed(t) && !has(self.ran, t) && numbers_in(unrun).all(|u| has(self.before(u), t))
    }

    /// T with all numbers that are before it and after it both.
    pub fn group(&self, t: u32) -> u64 {
        let both = numbers_in(self.before(t)).filter(|u| has(self.before(*u), t));
        both.fold(only(t), |word, u| word | only(u))
    }
}

fn committed_word(server: &Server) -> u64 {
    let committed = server.numbered().filter(|(_, record)| record.committed.is_some());
    committed.fold(0, |word, (t, _)| word | only(t))
}
