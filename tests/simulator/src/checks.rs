//! What must hold of every lawful history.

use engine::Ledger;
use model::cluster::{numbers_in, only, servers_of, NUMBERS, SERVERS, SHARDS};
use model::{Pieces, Server};
use std::collections::BTreeMap;
use std::fmt;

/// The promise that was broken.
#[derive(Clone, Copy, Debug, PartialEq, Eq, PartialOrd, Ord)]
pub enum Check {
    /// Any two servers that hold a number as committed hold the same set.
    Agreement,
    /// There is one order of all numbers in which every server ran its conflicting pairs.
    OneOrder,
    /// Two servers of a shard that ran the same numbers with pieces there have equal counters: the same values and the same full marks.
    EqualCounters,
    /// A number has the same results at every server of the shard that ran it, kept or not.
    EqualResults,
    /// A Commit or a Done answers how many it logged, and nothing else logs any.
    Count,
    /// After every step no server has a closed number that has not run; so a run alone gives 0 and changes nothing.
    ClosedRan,
    /// Refusals 5, 6 and 13 are never given, nor any other that no host asked for.
    Refusals,
    /// With all trunks up, every number that was begun can be driven to its end and runs.
    Progress,
}

impl fmt::Display for Check {
    fn fmt(&self, out: &mut fmt::Formatter) -> fmt::Result {
        out.write_str(match self {
            Check::Agreement => "agreement",
            Check::OneOrder => "one order",
            Check::EqualCounters => "equal counters",
            Check::EqualResults => "equal results",
            Check::Count => "the count of what ran",
            Check::ClosedRan => "all that is closed has run",
            Check::Refusals => "refusals",
            Check::Progress => "progress",
        })
    }
}

/// A broken promise, in words.
#[derive(Clone, Debug)]
pub struct Fault {
    pub check: Check,
    pub what: String,
}

/// The first of the promises that these servers break.
pub fn check(servers: &[Server], transactions: &BTreeMap<u32, Pieces>) -> Option<Fault> {
    agreement(servers)
        .or_else(|| one_order(servers, transactions))
        .or_else(|| equal_results(servers, transactions))
        .or_else(|| equal_counters(servers, transactions))
}

fn agreement(servers: &[Server]) -> Option<Fault> {
    (0..NUMBERS).find_map(|t| {
        let mut held = servers.iter().filter_map(|s| Some((s.id, s.record(t).committed?)));
        let (first, set) = held.next()?;
        let (other, _) = held.find(|(_, other)| *other != set)?;
        let what = format!("servers {first} and {other} hold T{t} as committed with different sets");
        Some(Fault { check: Check::Agreement, what })
    })
}

/// The numbers in the words of a number's committed set.
fn named(held: &Ledger, t: u32) -> u64 {
    held.committed[t as usize].map_or(0, |set| set.all())
}

/// The numbers before T: those in a word of its committed set, and those before such a number by its committed set.
pub fn before(held: &Ledger, t: u32) -> u64 {
    let (mut found, mut next) = (0, named(held, t));
    while next & !found != 0 {
        found |= next;
        next = numbers_in(next).fold(0, |word, u| word | named(held, u));
    }
    found
}

/// No number is closed, which is to say that it and everything before it is committed here, and has not run.
pub fn all_closed_ran(server: u32, held: &Ledger) -> Option<Fault> {
    let committed = |t: u32| held.committed[t as usize].is_some();
    let closed = |t: &u32| committed(*t) && numbers_in(before(held, *t)).all(committed);
    let ran = held.log.entries().iter().fold(0, |word, t| word | only(*t));
    let t = numbers_in(!ran).find(closed)?;
    let what = format!("T{t} is closed at server {server} and has not run");
    Some(Fault { check: Check::ClosedRan, what })
}

fn conflict(transactions: &BTreeMap<u32, Pieces>, t: u32, u: u32) -> bool {
    match (transactions.get(&t), transactions.get(&u)) {
        (Some(mine), Some(theirs)) => t != u && (0..SHARDS).any(|shard| mine.conflict_at(theirs, shard)),
        _ => false,
    }
}

/// The orders of all logs, of conflicting pairs alone, have no cycle.
pub fn one_order(servers: &[Server], transactions: &BTreeMap<u32, Pieces>) -> Option<Fault> {
    let mut ahead = [0u64; NUMBERS as usize];
    for server in servers {
        let log = server.log.entries();
        for (place, t) in log.iter().enumerate() {
            for u in log[..place].iter().filter(|u| conflict(transactions, *t, **u)) {
                ahead[*t as usize] |= only(*u);
            }
        }
    }
    let stuck = without_order(&ahead);
    if stuck == 0 {
        return None;
    }
    let numbers: Vec<u32> = numbers_in(stuck).collect();
    let what = format!("the conflicting pairs of {numbers:?} ran in no one order");
    Some(Fault { check: Check::OneOrder, what })
}

/// The numbers left when, again and again, one is taken away that nothing left is ahead of.
fn without_order(ahead: &[u64]) -> u64 {
    let mut left = u64::MAX;
    while let Some(first) = numbers_in(left).find(|t| ahead[*t as usize] & left == 0) {
        left &= !only(first);
    }
    left
}

/// The numbers that a server ran and that have pieces on its shard, as a word.
fn ran_here(server: &Server, transactions: &BTreeMap<u32, Pieces>) -> u64 {
    let touching = |t: &&u32| transactions.get(t).map_or(false, |pieces| pieces.touch(server.shard()));
    server.log.entries().iter().filter(touching).fold(0, |word, t| word | only(*t))
}

/// Every pair of servers of one shard.
fn pairs(servers: &[Server]) -> Vec<(&Server, &Server)> {
    let of_shard = |shard| servers_of(shard).map(|s| &servers[s as usize]).collect::<Vec<_>>();
    let pairs_of = |s: Vec<_>| vec![(s[0], s[1]), (s[0], s[2]), (s[1], s[2])];
    debug_assert_eq!(servers.len(), SERVERS as usize);
    (0..SHARDS).map(of_shard).flat_map(pairs_of).collect()
}

pub fn equal_results(servers: &[Server], transactions: &BTreeMap<u32, Pieces>) -> Option<Fault> {
    pairs(servers).into_iter().find_map(|(a, b)| {
        let both = ran_here(a, transactions) & ran_here(b, transactions);
        let t = numbers_in(both).find(|t| a.record(*t).results != b.record(*t).results)?;
        let what = format!("T{t} has other results at server {} than at server {}", a.id, b.id);
        Some(Fault { check: Check::EqualResults, what })
    })
}

pub fn equal_counters(servers: &[Server], transactions: &BTreeMap<u32, Pieces>) -> Option<Fault> {
    pairs(servers).into_iter().find_map(|(a, b)| {
        let same = ran_here(a, transactions) == ran_here(b, transactions);
        if !same || a.counters == b.counters {
            return None;
        }
        let what = format!("servers {} and {} ran the same numbers and have other counters", a.id, b.id);
        Some(Fault { check: Check::EqualCounters, what })
    })
}
