//! The form of a drive's state. It is asked of any state whatever.

use super::{Answer, Drive, ACCEPT, COMMIT, PREPARE, PRE_ACCEPT};
use crate::ballots;
use crate::cluster::{shard_of, COORDINATORS, NUMBERS, SERVERS};
use crate::sets::word_suits;

pub fn keeps_form(drive: &Drive) -> bool {
    in_range(drive)
        && drive.pieces.keep_rules()
        && ballots_keep_form(drive)
        && answers_keep_form(drive)
        && set_keeps_form(drive)
}

/// T, coordinator and phase in range.
fn in_range(drive: &Drive) -> bool {
    drive.t < NUMBERS && drive.coordinator < COORDINATORS && drive.phase <= COMMIT
}

/// A ballot that the coordinator may use for T, not 0 in phase 0; the promise seen is valid.
fn ballots_keep_form(drive: &Drive) -> bool {
    ballots::may_use(drive.coordinator, drive.t, drive.ballot)
        && !(drive.phase == PREPARE && drive.ballot == 0)
        && ballots::valid(drive.seen)
}

/// Counted answers come from servers of T's shards, are too few to decide without "move on", and none in phase 3; what they hold is good.
fn answers_keep_form(drive: &Drive) -> bool {
    let decides = match drive.phase {
        PREPARE | PRE_ACCEPT => drive.all_answered(),
        ACCEPT => drive.two_in_each(),
        _ => (0..SERVERS).any(|server| drive.counted(server)),
    };
    let good = |server| drive.answer(server).map_or(true, |answer| answer_keeps_form(drive, server, &answer));
    !decides && (0..SERVERS).all(good)
}

/// A counted answer of this phase: from a touched shard, with good words and ballots. A part that the phase doesn't have isn't held, so it isn't judged.
fn answer_keeps_form(drive: &Drive, server: u32, answer: &Answer) -> bool {
    let has_word = matches!(drive.phase, PREPARE | PRE_ACCEPT);
    let word = answer.word.filter(|_| has_word);
    let accepted = answer.accepted.filter(|_| drive.phase == PREPARE);
    drive.pieces.touch(shard_of(server))
        && word.map_or(true, |word| word_suits(word, drive.t, true))
        && accepted.map_or(true, |vote| ballots::valid(vote.ballot) && vote.set.suits(drive.t, &drive.pieces))
}

/// A set is held exactly in phases 2 and 3, and is a good one.
fn set_keeps_form(drive: &Drive) -> bool {
    drive.set.is_some() == matches!(drive.phase, ACCEPT | COMMIT)
        && drive.set.map_or(true, |set| set.suits(drive.t, &drive.pieces))
}
