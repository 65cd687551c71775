//! The form of a server's state. It is asked of any state whatever, so nothing is read before what makes it readable was judged.

use super::{Record, Server};
use crate::ballots;
use crate::cluster::{has, only, NUMBERS, SERVERS};
use crate::sets::word_suits;

pub fn keeps_form(server: &Server) -> bool {
    server.id < SERVERS
        && server.numbered().all(|(t, record)| held_keeps_form(t, record, server.shard()))
        && log_keeps_form(server)
}

/// Held pieces keep their rules, held sets theirs; held ballots are valid; any held set has pieces.
fn held_keeps_form(t: u32, record: &Record, shard: u32) -> bool {
    let ballots = ballots::valid(record.promise) && record.accepted.map_or(true, |vote| ballots::valid(vote.ballot));
    let sets = match &record.pieces {
        None => record.arrival.is_none() && record.accepted.is_none() && record.committed.is_none(),
        Some(pieces) => {
            pieces.keep_rules()
                && record.arrival.map_or(true, |word| word_suits(word, t, pieces.touch(shard)))
                && record.accepted.map_or(true, |vote| vote.set.suits(t, pieces))
                && record.committed.map_or(true, |set| set.suits(t, pieces))
        }
    };
    ballots && sets
}

/// The log: at most 64, no repeats, each number committed and everything before it in the log too; results for exactly the logged numbers.
fn log_keeps_form(server: &Server) -> bool {
    match logged(server) {
        None => false,
        Some(ran) => server.numbered().all(|(t, record)| {
            if has(ran, t) {
                direct_words_inside(record, ran) && results_fit(record, server.shard())
            } else {
                record.results.is_none()
            }
        }),
    }
}

/// The logged numbers as a word, if there are at most 64, none above 63, none twice.
fn logged(server: &Server) -> Option<u64> {
    if server.log.count > NUMBERS {
        return None;
    }
    let mut ran = 0;
    for &t in server.log.entries() {
        if t >= NUMBERS || has(ran, t) {
            return None;
        }
        ran |= only(t);
    }
    Some(ran)
}

/// A committed number whose words name only logged ones. Asked of each logged number, this says that everything before each is in the log.
fn direct_words_inside(record: &Record, ran: u64) -> bool {
    record.committed.map_or(false, |set| set.all() & !ran == 0)
}

/// Results are there, one for each piece on this shard.
fn results_fit(record: &Record, shard: u32) -> bool {
    match (&record.results, &record.pieces) {
        (Some(results), Some(pieces)) => results.count as usize == pieces.on(shard).count(),
        _ => false,
    }
}
