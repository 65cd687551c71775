//! How a drive decides, phase by phase.

use super::{Drive, ACCEPT, COMMIT, PREPARE, PRE_ACCEPT};
use crate::ballots::Vote;
use crate::cluster::SERVERS;
use crate::sets::Set;

/// Phases 0 and 1 decide when all servers of T's shards answered, phase 2 with two in each.
pub fn decide_if_enough(drive: &mut Drive) {
    let enough = match drive.phase {
        PREPARE | PRE_ACCEPT => drive.all_answered(),
        _ => drive.two_in_each(),
    };
    if enough {
        decide(drive);
    }
}

/// Decides by the answers counted so far.
pub fn decide(drive: &mut Drive) {
    match drive.phase {
        PREPARE => decide_prepare(drive),
        PRE_ACCEPT => decide_pre_accept(drive),
        _ => drive.enter(COMMIT, drive.set),
    }
}

/// Phase 0: an accepted set of the highest ballot goes to phase 2; else the arrival words, if every answer has one and they are equal within each shard; else phase 1 at the same ballot.
fn decide_prepare(drive: &mut Drive) {
    if let Some(vote) = highest_accepted(drive) {
        drive.enter(ACCEPT, Some(vote.set));
    } else if words_equal_in_each_shard(drive) {
        drive.enter(ACCEPT, Some(union_of_words(drive)));
    } else {
        drive.enter(PRE_ACCEPT, None);
    }
}

/// Phase 1: at ballot 0, with all answered and equal words within each shard, phase 3; else phase 2. The set is the union per shard of the counted words.
fn decide_pre_accept(drive: &mut Drive) {
    let fast = drive.ballot == 0 && drive.all_answered() && words_equal_in_each_shard(drive);
    let phase = if fast { COMMIT } else { ACCEPT };
    drive.enter(phase, Some(union_of_words(drive)));
}

/// The answer with the highest accepted ballot; of equals, the lowest server's.
fn highest_accepted(drive: &Drive) -> Option<Vote> {
    let votes = (0..SERVERS).filter_map(|server| drive.answer(server)?.accepted);
    votes.fold(None, |best: Option<Vote>, vote| match best {
        Some(held) if held.ballot >= vote.ballot => Some(held),
        _ => Some(vote),
    })
}

/// Every counted answer has a word, and those of a shard are equal.
fn words_equal_in_each_shard(drive: &Drive) -> bool {
    drive.pieces.shards().all(|shard| {
        let mut words = drive.answers_from(shard).map(|answer| answer.word);
        match words.next() {
            Some(Some(first)) => words.all(|word| word == Some(first)),
            _ => false,
        }
    })
}

/// Word k is the union of the words counted from shard k, 0 for a shard that T doesn't touch.
fn union_of_words(drive: &Drive) -> Set {
    drive.pieces.shards().fold(Set::EMPTY, |set, shard| {
        let words = drive.answers_from(shard).filter_map(|answer| answer.word);
        set.with(shard, words.fold(0, |union, word| union | word))
    })
}
