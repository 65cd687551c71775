//! Slips in how a drive decides. What was counted is read off the drive before the step and off the reply.

use crate::Slip;
use model::cluster::servers_of;
use model::drive::{self, Answer, ACCEPT, COMMIT, PREPARE, PRE_ACCEPT};
use model::{Drive, Message, Refusal, Set, Vote};

pub fn reply(slip: Slip, drive: &mut Drive, message: &Message) -> Result<(), Refusal> {
    let counted = with_reply(drive, message);
    drive::reply(drive, message)?;
    if !matches!(message, Message::Done { .. } | Message::Behind { .. }) {
        correct(slip, &counted, drive, false);
    }
    Ok(())
}

pub fn move_on(slip: Slip, drive: &mut Drive) -> Result<(), Refusal> {
    let counted = drive.clone();
    match drive::move_on(drive) {
        Err(Refusal::CannotDecide) if slip == Slip::OneAnswerIsEnough && answers_in_each(drive, 1) => {
            decide_with_few(drive);
            Ok(())
        }
        Err(refusal) => Err(refusal),
        Ok(()) => {
            correct(slip, &counted, drive, true);
            Ok(())
        }
    }
}

pub fn again(slip: Slip, drive: &mut Drive) -> Result<(), Refusal> {
    let mut forgetful = drive.clone();
    if slip == Slip::AgainForgetsPromises {
        drive::again(&mut drive.clone())?;
        forgetful.seen = 0;
    }
    drive::again(&mut forgetful)?;
    *drive = forgetful;
    Ok(())
}

/// The drive with a reply counted and nothing decided.
fn with_reply(drive: &Drive, message: &Message) -> Drive {
    let mut counted = drive.clone();
    let answer = match *message {
        Message::PrepareOk { arrival, accepted, .. } => Answer { word: arrival, accepted },
        Message::PreAcceptOk { word, .. } => Answer { word: Some(word), accepted: None },
        _ => Answer::default(),
    };
    if let Some(slot) = message.server().and_then(|server| counted.answers.get_mut(server as usize)) {
        *slot = Some(answer);
    }
    counted
}

/// Turns the true decision into the slip's. `counted` is the drive before it, with all that was counted.
fn correct(slip: Slip, counted: &Drive, drive: &mut Drive, moved_on: bool) {
    let decided = moved_on || drive.phase != counted.phase;
    match (slip, counted.phase) {
        (Slip::CommonestAccepted, PREPARE) if decided => take_accepted(counted, drive, commonest),
        (Slip::LowestAccepted, PREPARE) if decided => take_accepted(counted, drive, lowest),
        (Slip::FastOnTwoOfThree, PRE_ACCEPT) if decided && counted.ballot == 0 => {
            if let Some(set) = two_equal_in_each(counted) {
                go(drive, COMMIT, Some(set));
            }
        }
        (Slip::FastAtRecovery, PRE_ACCEPT) if decided && counted.all_answered() && equal_in_each(counted) => {
            go(drive, COMMIT, drive.set)
        }
        (Slip::EqualWordsIgnored, PREPARE) if decided && !any_accepted(counted) => go(drive, PRE_ACCEPT, None),
        (Slip::IntersectionForUnion, PRE_ACCEPT) if decided => drive.set = Some(intersection(counted)),
        (Slip::OneAnswerIsEnough, ACCEPT) if !decided && answers_in_each(counted, 1) => go(drive, COMMIT, counted.set),
        _ => {}
    }
}

fn go(drive: &mut Drive, phase: u32, set: Option<Set>) {
    drive.phase = phase;
    drive.set = set;
    drive.answers = Default::default();
}

fn answers_in_each(drive: &Drive, many: usize) -> bool {
    drive.pieces.shards().all(|shard| drive.answers_from(shard).count() >= many)
}

fn any_accepted(drive: &Drive) -> bool {
    drive.answers.iter().flatten().any(|answer| answer.accepted.is_some())
}

fn equal_in_each(drive: &Drive) -> bool {
    drive.pieces.shards().all(|shard| {
        let words: Vec<Option<u64>> = drive.answers_from(shard).map(|answer| answer.word).collect();
        words.iter().all(|word| word.is_some() && *word == words[0])
    })
}

fn take_accepted(counted: &Drive, drive: &mut Drive, choose: fn(&[Vote]) -> Set) {
    let votes: Vec<Vote> = counted.answers.iter().flatten().filter_map(|answer| answer.accepted).collect();
    if !votes.is_empty() {
        drive.set = Some(choose(&votes));
    }
}

fn commonest(votes: &[Vote]) -> Set {
    let times = |vote: &Vote| votes.iter().filter(|other| other.set == vote.set).count();
    let best = votes.iter().rev().max_by_key(|vote| times(vote));
    best.expect("a vote").set
}

fn lowest(votes: &[Vote]) -> Set {
    votes.iter().min_by_key(|vote| vote.ballot).expect("a vote").set
}

/// The word that two answers of each shard have, if there is one.
fn two_equal_in_each(counted: &Drive) -> Option<Set> {
    counted.pieces.shards().try_fold(Set::EMPTY, |set, shard| {
        let words: Vec<u64> = counted.answers_from(shard).filter_map(|answer| answer.word).collect();
        let twice = words.iter().find(|word| words.iter().filter(|other| other == word).count() >= 2)?;
        Some(set.with(shard, *twice))
    })
}

fn intersection(counted: &Drive) -> Set {
    counted.pieces.shards().fold(Set::EMPTY, |set, shard| {
        let words = counted.answers_from(shard).filter_map(|answer| answer.word);
        set.with(shard, words.fold(u64::MAX, |all, word| all & word))
    })
}

/// Lets the true rules decide with too few answers: each shard's first answer stands for all three of its servers.
fn decide_with_few(drive: &mut Drive) {
    let mut full = drive.clone();
    for shard in drive.pieces.shards() {
        let first = drive.answers_from(shard).next();
        for server in servers_of(shard).filter(|server| !drive.counted(*server)) {
            full.answers[server as usize] = first;
        }
    }
    let spare = full.pieces.shards().next().map(|shard| servers_of(shard).start as usize);
    if let Some(spare) = spare {
        full.answers[spare] = None;
    }
    if drive::move_on(&mut full).is_ok() {
        *drive = full;
    }
}
