//! The events of a drive: Start, Recover, Again, "move on", a reply; and the message due.

use super::decide::{decide, decide_if_enough};
use super::judge::judge;
use super::{keeps_form, Answer, Drive, ACCEPT, COMMIT, PREPARE, PRE_ACCEPT};
use crate::ballots;
use crate::cluster::{origin, COORDINATORS, NUMBERS};
use crate::message::Message;
use crate::pieces::Pieces;
use crate::refusal::{refuse_if, Refusal};

/// The message due, and the servers that it is for: bit s for server s.
#[derive(Clone, Copy, Debug, PartialEq, Eq)]
pub struct Sending {
    pub message: Message,
    pub servers: u32,
}

/// Begins T at ballot 0 in phase 1, for its origin only. What the lent drive held isn't judged and is forgotten.
pub fn start(drive: &mut Drive, coordinator: u32, t: u32, pieces: &Pieces) -> Result<(), Refusal> {
    refuse_if(pieces.too_many(), Refusal::Unknown)?;
    let in_range = coordinator < COORDINATORS && t < NUMBERS;
    refuse_if(!in_range || coordinator != origin(t), Refusal::OutOfRange)?;
    refuse_if(!pieces.keep_rules(), Refusal::BadPieces)?;
    *drive = begun(coordinator, t, pieces, 0, PRE_ACCEPT);
    Ok(())
}

/// Begins T at the coordinator's next ballot above the floor, which may be any number, in phase 0. What the lent drive held isn't judged and is forgotten.
pub fn recover(drive: &mut Drive, coordinator: u32, t: u32, pieces: &Pieces, floor: u32) -> Result<(), Refusal> {
    refuse_if(pieces.too_many(), Refusal::Unknown)?;
    refuse_if(coordinator >= COORDINATORS || t >= NUMBERS, Refusal::OutOfRange)?;
    refuse_if(!pieces.keep_rules(), Refusal::BadPieces)?;
    let ballot = ballots::next(coordinator, floor)?;
    *drive = begun(coordinator, t, pieces, ballot, PREPARE);
    Ok(())
}

fn begun(coordinator: u32, t: u32, pieces: &Pieces, ballot: u32, phase: u32) -> Drive {
    Drive { t, coordinator, ballot, phase, pieces: *pieces, ..Drive::default() }
}

/// Before phase 3: the next ballot above its own and every promise that it saw, in phase 0.
pub fn again(drive: &mut Drive) -> Result<(), Refusal> {
    refuse_if(!keeps_form(drive), Refusal::BrokenForm)?;
    refuse_if(drive.phase == COMMIT, Refusal::NotAwaited)?;
    drive.ballot = ballots::next(drive.coordinator, drive.ballot.max(drive.seen))?;
    drive.enter(PREPARE, None);
    Ok(())
}

/// "Move on": phases 0 and 1 decide with two answers in each shard.
pub fn move_on(drive: &mut Drive) -> Result<(), Refusal> {
    refuse_if(!keeps_form(drive), Refusal::BrokenForm)?;
    refuse_if(drive.phase == COMMIT, Refusal::NotAwaited)?;
    refuse_if(!drive.two_in_each(), Refusal::CannotDecide)?;
    decide(drive);
    Ok(())
}

/// Takes a reply. A server's OK counts once, and the one that makes enough decides. Done ends the drive with its set, and Behind only records the promise.
pub fn reply(drive: &mut Drive, message: &Message) -> Result<(), Refusal> {
    judge(drive, message)?;
    match *message {
        Message::PrepareOk { server, arrival, accepted, .. } => {
            count(drive, server, Answer { word: arrival, accepted })
        }
        Message::PreAcceptOk { server, word, .. } => count(drive, server, Answer { word: Some(word), accepted: None }),
        Message::AcceptOk { server, .. } => count(drive, server, Answer::default()),
        Message::Done { set, .. } => drive.enter(COMMIT, Some(set)),
        Message::Behind { promise, .. } => drive.seen = drive.seen.max(promise),
        _ => {}
    }
    Ok(())
}

fn count(drive: &mut Drive, server: u32, answer: Answer) {
    drive.answers[server as usize] = Some(answer);
    decide_if_enough(drive);
}

/// The message due and to which servers, by the drive alone: in every phase every server of T's shards.
pub fn due(drive: &Drive) -> Result<Sending, Refusal> {
    refuse_if(!keeps_form(drive), Refusal::BrokenForm)?;
    let (t, ballot, pieces) = (drive.t, drive.ballot, drive.pieces);
    let set = drive.set.unwrap_or_default();
    let message = match drive.phase {
        PREPARE => Message::Prepare { t, ballot, pieces },
        PRE_ACCEPT => Message::PreAccept { t, ballot, pieces },
        ACCEPT => Message::Accept { t, ballot, pieces, set },
        _ => Message::Commit { t, pieces, set },
    };
    Ok(Sending { message, servers: drive.addressed().fold(0, |all, server| all | 1 << server) })
}
