//! The refusals of a server, in their order: 13, 12, 1, 2, 3, 4, 5, 6.

use super::{keeps_form, Server};
use crate::ballots;
use crate::cluster::NUMBERS;
use crate::message::Message;
use crate::refusal::{refuse_if, Refusal};

pub fn judge(server: &Server, message: &Message) -> Result<(), Refusal> {
    refuse_if(!keeps_form(server), Refusal::BrokenForm)?;
    refuse_if(!taken(message) || message.too_many(), Refusal::Unknown)?;
    refuse_if(out_of_range(message), Refusal::OutOfRange)?;
    refuse_if(breaks_piece_rules(message), Refusal::BadPieces)?;
    refuse_if(breaks_set_rules(message), Refusal::BadSet)?;
    refuse_if(untouched(server, message), Refusal::Untouched)?;
    refuse_if(other_pieces(server, message), Refusal::OtherPieces)?;
    refuse_if(other_set(server, message), Refusal::OtherSet)
}

/// A server takes codes 0 to 5 and 20.
fn taken(message: &Message) -> bool {
    matches!(message.code(), 0..=5 | 20)
}

/// T above 63, a ballot that is never valid, a Prepare at ballot 0.
fn out_of_range(message: &Message) -> bool {
    let prepare_at_0 = matches!(message, Message::Prepare { ballot: 0, .. });
    message.t() >= NUMBERS || message.ballot().map_or(false, |b| !ballots::valid(b)) || prepare_at_0
}

fn breaks_piece_rules(message: &Message) -> bool {
    message.pieces().map_or(false, |pieces| !pieces.keep_rules())
}

fn breaks_set_rules(message: &Message) -> bool {
    match (message.set(), message.pieces()) {
        (Some(set), Some(pieces)) => !set.suits(message.t(), pieces),
        _ => false,
    }
}

/// PreAccept, Accept or Prepare at a server whose shard T doesn't touch, by the message's pieces.
fn untouched(server: &Server, message: &Message) -> bool {
    match message {
        Message::PreAccept { pieces, .. } | Message::Accept { pieces, .. } | Message::Prepare { pieces, .. } => {
            !pieces.touch(server.shard())
        }
        _ => false,
    }
}

fn other_pieces(server: &Server, message: &Message) -> bool {
    match (message.pieces(), &server.record(message.t()).pieces) {
        (Some(given), Some(held)) => given != held,
        _ => false,
    }
}

/// Commit, or Done, with another set than the committed one.
fn other_set(server: &Server, message: &Message) -> bool {
    match (message, server.record(message.t()).committed) {
        (Message::Commit { set, .. }, Some(committed)) | (Message::Done { set, .. }, Some(committed)) => {
            *set != committed
        }
        _ => false,
    }
}
