//! The refusals of a drive for a reply, in their order: 13, 12, 1, 2, 8, 5, 3. The host's events have theirs beside them, in the same order with 7 and 9 at its end.

use super::{keeps_form, Drive, ACCEPT, COMMIT, PREPARE, PRE_ACCEPT};
use crate::ballots;
use crate::cluster::{shard_of, NUMBERS, SERVERS};
use crate::message::Message;
use crate::refusal::{refuse_if, Refusal};
use crate::sets::word_suits;

pub fn judge(drive: &Drive, message: &Message) -> Result<(), Refusal> {
    refuse_if(!keeps_form(drive), Refusal::BrokenForm)?;
    refuse_if(!taken(message) || message.too_many(), Refusal::Unknown)?;
    refuse_if(out_of_range(message), Refusal::OutOfRange)?;
    refuse_if(message.pieces().map_or(false, |pieces| !pieces.keep_rules()), Refusal::BadPieces)?;
    refuse_if(!awaited(drive, message), Refusal::NotAwaited)?;
    refuse_if(message.pieces().map_or(false, |pieces| *pieces != drive.pieces), Refusal::OtherPieces)?;
    refuse_if(breaks_set_rules(drive, message), Refusal::BadSet)
}

/// A drive takes codes 16, 17, 19, 20, 21.
fn taken(message: &Message) -> bool {
    matches!(message.code(), 16 | 17 | 19 | 20 | 21)
}

/// T above 63, a server above 11, a ballot or promise in any field that is never valid.
fn out_of_range(message: &Message) -> bool {
    let other_ballot = match *message {
        Message::PrepareOk { accepted: Some(vote), .. } => vote.ballot,
        Message::Behind { promise, .. } => promise,
        _ => 0,
    };
    message.t() >= NUMBERS
        || message.server().map_or(false, |server| server >= SERVERS)
        || message.ballot().map_or(false, |ballot| !ballots::valid(ballot))
        || !ballots::valid(other_ballot)
}

/// For this T, ballot and phase, from a touched server that isn't counted yet; nothing in phase 3. Behind is of no one phase and allows a counted server. Done has neither ballot nor server.
fn awaited(drive: &Drive, message: &Message) -> bool {
    let phase = match message {
        Message::PrepareOk { .. } => drive.phase == PREPARE,
        Message::PreAcceptOk { .. } => drive.phase == PRE_ACCEPT,
        Message::AcceptOk { .. } => drive.phase == ACCEPT,
        _ => drive.phase != COMMIT,
    };
    let counted_allowed = matches!(message, Message::Behind { .. });
    let server = message
        .server()
        .map_or(true, |server| drive.pieces.touch(shard_of(server)) && (counted_allowed || !drive.counted(server)));
    phase && message.t() == drive.t && message.ballot().map_or(true, |ballot| ballot == drive.ballot) && server
}

/// A word or set that holds T itself, or says something of a shard that T doesn't touch. The server's shard is touched, or the reply wasn't awaited.
fn breaks_set_rules(drive: &Drive, message: &Message) -> bool {
    let (word, set) = match *message {
        Message::PreAcceptOk { word, .. } => (Some(word), None),
        Message::PrepareOk { arrival, accepted, .. } => (arrival, accepted.map(|vote| vote.set)),
        Message::Done { set, .. } => (None, Some(set)),
        _ => (None, None),
    };
    word.map_or(false, |word| !word_suits(word, drive.t, true))
        || set.map_or(false, |set| !set.suits(drive.t, &drive.pieces))
}
