//! Messages as bytes: XDR items (RFC 4506) one after the other, the code first.

mod read;
mod write;

use crate::message::Message;
use crate::pieces::Pieces;
use crate::refusal::{refuse_if, Refusal};

/// The longest message, an Accept with eight pieces.
pub const LONGEST: usize = 176;

/// The message of these bytes, or the first fault from the front; bytes left over are the last of the faults.
pub fn decode(bytes: &[u8]) -> Result<Message, Refusal> {
    let mut items = read::Items::of(bytes);
    let message = items.message()?;
    refuse_if(!items.at_end(), Refusal::BytesLeft)?;
    Ok(message)
}

/// Writes a message to the front of `out` and answers its length. The bytes behind it stay, and on a refusal all of them do.
pub fn encode(message: &Message, out: &mut [u8]) -> Result<usize, Refusal> {
    refuse_if(message.too_many(), Refusal::Unknown)?;
    let length = length(message);
    refuse_if(out.len() < length, Refusal::ShortBuffer)?;
    let mut cleared = [0u8; LONGEST];
    write::message(&mut cleared, message);
    out[..length].copy_from_slice(&cleared[..length]);
    Ok(length)
}

/// The bytes of a message in a buffer of their own.
pub fn bytes_of(message: &Message) -> Result<Vec<u8>, Refusal> {
    let mut out = [0u8; LONGEST];
    let length = encode(message, &mut out)?;
    Ok(out[..length].to_vec())
}

const UINT: usize = 4;
const WORD: usize = 8;
const SET: usize = 4 * WORD;
const PIECE: usize = 4 * UINT;
const VALUE: usize = 2 * UINT;

/// The length of a message, whose counts are at most eight: the code and T, then what its kind adds.
fn length(message: &Message) -> usize {
    let pieces = |p: &Pieces| UINT + PIECE * p.entries().len();
    let rest = match message {
        Message::PreAccept { pieces: p, .. } | Message::Prepare { pieces: p, .. } => UINT + pieces(p),
        Message::Accept { pieces: p, .. } => UINT + pieces(p) + SET,
        Message::Commit { pieces: p, .. } | Message::Done { pieces: p, .. } => pieces(p) + SET,
        Message::Inquire { .. } | Message::Fetch { .. } => 0,
        Message::PreAcceptOk { .. } => 2 * UINT + WORD,
        Message::AcceptOk { .. } | Message::CommitOk { .. } => 2 * UINT,
        Message::PrepareOk { arrival, accepted, .. } => {
            4 * UINT + arrival.map_or(0, |_| WORD) + accepted.map_or(0, |_| UINT + SET)
        }
        Message::Behind { .. } => 3 * UINT,
        Message::NotYet { .. } => UINT,
        Message::Results { values, .. } => 2 * UINT + VALUE * values.entries().len(),
    };
    2 * UINT + rest
}
