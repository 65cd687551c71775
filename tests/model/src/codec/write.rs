//! Writing items: each is written to the front of what it is given, and answers the part after it.

use crate::counters::Values;
use crate::message::Message;
use crate::pieces::Pieces;
use crate::sets::Set;

/// What is left of the buffer.
type Tail<'a> = &'a mut [u8];

/// Writes a message, whose counts are at most eight, to a buffer that is long enough.
pub fn message(out: &mut [u8], message: &Message) {
    let out = uint(out, message.code());
    let out = uint(out, message.t());
    match *message {
        Message::PreAccept { ballot, pieces: ref p, .. } | Message::Prepare { ballot, pieces: ref p, .. } => {
            pieces(uint(out, ballot), p)
        }
        Message::Accept { ballot, pieces: ref p, set: ref s, .. } => set(pieces(uint(out, ballot), p), s),
        Message::Commit { pieces: ref p, set: ref s, .. } | Message::Done { pieces: ref p, set: ref s, .. } => {
            set(pieces(out, p), s)
        }
        Message::Inquire { .. } | Message::Fetch { .. } => out,
        Message::PreAcceptOk { server, ballot, word: w, .. } => word(uint(uint(out, server), ballot), w),
        Message::AcceptOk { server, ballot, .. } => uint(uint(out, server), ballot),
        Message::CommitOk { server, ran, .. } => uint(uint(out, server), ran),
        Message::PrepareOk { server, ballot, arrival, accepted, .. } => {
            let out = uint(uint(out, server), ballot);
            let out = optional(out, arrival, word);
            optional(out, accepted, |out, vote| set(uint(out, vote.ballot), &vote.set))
        }
        Message::Behind { server, asked, promise, .. } => uint(uint(uint(out, server), asked), promise),
        Message::NotYet { server, .. } => uint(out, server),
        Message::Results { server, values: ref v, .. } => values(uint(out, server), v),
    };
}

fn pieces<'a>(out: Tail<'a>, pieces: &Pieces) -> Tail<'a> {
    let out = uint(out, pieces.count);
    pieces.entries().iter().fold(out, |out, piece| {
        let out = uint(uint(uint(out, piece.shard), piece.key), piece.kind);
        int(out, piece.operand)
    })
}

fn values<'a>(out: Tail<'a>, values: &Values) -> Tail<'a> {
    let out = uint(out, values.count);
    values.entries().iter().fold(out, |out, value| boolean(int(out, value.value), value.kept))
}

fn set<'a>(out: Tail<'a>, set: &Set) -> Tail<'a> {
    set.0.iter().fold(out, |out, w| word(out, *w))
}

/// Optional data: a boolean, then the item if there is one.
fn optional<'a, T>(out: Tail<'a>, item: Option<T>, write: fn(Tail<'a>, T) -> Tail<'a>) -> Tail<'a> {
    match item {
        None => boolean(out, false),
        Some(item) => write(boolean(out, true), item),
    }
}

fn boolean(out: Tail, truth: bool) -> Tail {
    uint(out, truth.into())
}

fn uint(out: Tail, number: u32) -> Tail {
    put(out, &number.to_be_bytes())
}

fn int(out: Tail, number: i32) -> Tail {
    put(out, &number.to_be_bytes())
}

/// An unsigned hyper.
fn word(out: Tail, word: u64) -> Tail {
    put(out, &word.to_be_bytes())
}

/// Writes bytes, highest first.
fn put<'a>(out: Tail<'a>, bytes: &[u8]) -> Tail<'a> {
    let (front, rest) = out.split_at_mut(bytes.len());
    front.copy_from_slice(bytes);
    rest
}
