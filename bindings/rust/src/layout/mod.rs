//! The structs of `include/drobulets.h`, field by field: integers only, so every pattern of bytes is a value.
//!
//! [`Server`](crate::Server) and [`Drive`](crate::Drive) keep them in form. Who makes or changes one by hand may break its form;
//! the library then refuses it by 13.

mod numbers;

pub use numbers::{Numbers, Place, Visit};

use crate::cluster::{KEYS, NUMBERS, PIECES, SERVERS};

/// What a transaction does to one counter.
#[repr(C)]
#[derive(Clone, Copy, Debug, Default, PartialEq, Eq, Hash)]
pub struct Piece {
    /// 0 to 3.
    pub shard: u32,
    /// 0 to 15.
    pub key: u32,
    /// [`Piece::READ`], [`Piece::PUT`] or [`Piece::ADD`].
    pub kind: u32,
    /// What is put or added; of a read 0.
    pub operand: i32,
}

/// The first `count` of the list; a count of 0 is no pieces. They rise strictly by 16 × shard + key.
#[repr(C)]
#[derive(Clone, Copy, Debug, Default, PartialEq, Eq)]
pub struct Pieces {
    /// The pieces, and what is ignored behind the count.
    pub list: [Piece; PIECES],
    /// At most 8.
    pub count: u32,
}

/// A dependency set: a word for each shard; bit T of word k says that T came earlier in a conflict at shard k.
#[repr(C)]
#[derive(Clone, Copy, Debug, Default, PartialEq, Eq, Hash)]
pub struct Set {
    /// The word of shard 0.
    pub w0: u64,
    /// The word of shard 1.
    pub w1: u64,
    /// The word of shard 2.
    pub w2: u64,
    /// The word of shard 3.
    pub w3: u64,
}

/// A word that may be missing.
#[repr(C)]
#[derive(Clone, Copy, Debug, Default, PartialEq, Eq)]
pub struct MaybeWord {
    /// 0 is none, and the rest is then ignored.
    pub some: u32,
    /// The word.
    pub word: u64,
}

/// An accepted set with its ballot, that may be missing.
#[repr(C)]
#[derive(Clone, Copy, Debug, Default, PartialEq, Eq)]
pub struct MaybeVote {
    /// 0 is none, and the rest is then ignored.
    pub some: u32,
    /// The ballot at which the set was accepted.
    pub ballot: u32,
    /// The set.
    pub set: Set,
}

/// A set that may be missing.
#[repr(C)]
#[derive(Clone, Copy, Debug, Default, PartialEq, Eq)]
pub struct MaybeSet {
    /// 0 is none, and the rest is then ignored.
    pub some: u32,
    /// The set.
    pub set: Set,
}

/// A result.
#[repr(C)]
#[derive(Clone, Copy, Debug, Default, PartialEq, Eq)]
pub struct Value {
    /// What the piece gave.
    pub value: i32,
    /// Not 0 where the value is that of a full [`Counter`], and no total: of an add whose sum would have left the signed 32-bit range,
    /// of every add to a counter that was full, and of a read of a full counter. Never of a put.
    pub kept: u32,
}

/// The first `count` of the list: the results of a transaction on one shard, in the order of its pieces there.
#[repr(C)]
#[derive(Clone, Copy, Debug, Default, PartialEq, Eq)]
pub struct Values {
    /// The results, and what is ignored behind the count.
    pub list: [Value; PIECES],
    /// At most 8.
    pub count: u32,
}

/// A message, either way. The fields that its code does not have are ignored, and 0 in every message that the library makes.
#[repr(C)]
#[derive(Clone, Copy, Debug, Default, PartialEq, Eq)]
pub struct Message {
    /// Which message it is.
    pub code: u32,
    /// The transaction number.
    pub t: u32,
    /// The server that answers.
    pub server: u32,
    /// The ballot asked for or answered.
    pub ballot: u32,
    /// The promise of a Behind.
    pub promise: u32,
    /// The pieces of T.
    pub pieces: Pieces,
    /// The set of an Accept, Commit or Done.
    pub set: Set,
    /// The arrival word of a PreAcceptOK.
    pub word: u64,
    /// The arrival word of a PrepareOK.
    pub arrival: MaybeWord,
    /// What is accepted, of a PrepareOK.
    pub accepted: MaybeVote,
    /// The values of a Results.
    pub values: Values,
    /// Of a CommitOK: how many numbers ran in all as the Commit or Done was taken.
    pub ran: u32,
}

/// What a server holds of one number.
#[repr(C)]
#[derive(Clone, Copy, Debug, Default, PartialEq, Eq)]
pub struct Record {
    /// The pieces, or none.
    pub pieces: Pieces,
    /// The promised ballot.
    pub promise: u32,
    /// The arrival word of the server's own shard.
    pub arrival: MaybeWord,
    /// The accepted set.
    pub accepted: MaybeVote,
    /// The committed set.
    pub committed: MaybeSet,
    /// Not 0 if the number ran here, and its values are there.
    pub ran: u32,
    /// Its results.
    pub values: Values,
}

/// A counter: a value and a full mark.
#[repr(C)]
#[derive(Clone, Copy, Debug, Default, PartialEq, Eq)]
pub struct Counter {
    /// What it stands at. Of a full counter it is no total.
    pub value: i32,
    /// Not 0 if it is full. An add whose sum would leave the signed 32-bit range sets it, to 1, and leaves the value. While it is set,
    /// every add leaves the counter as it is. A put stores its operand and clears it, to 0.
    pub full: u32,
}

/// The counters of a shard, by key.
#[repr(C)]
#[derive(Clone, Copy, Debug, Default, PartialEq, Eq)]
pub struct Counters {
    /// One for each key.
    pub list: [Counter; KEYS as usize],
}

/// The first `count` of the list: the numbers run, in order.
#[repr(C)]
#[derive(Clone, Copy, Debug, PartialEq, Eq)]
pub struct Log {
    /// The numbers, and what is ignored behind the count.
    pub list: [u32; NUMBERS as usize],
    /// At most 64.
    pub count: u32,
}

/// A server.
#[repr(C)]
#[derive(Clone, Copy, Debug, PartialEq, Eq)]
pub struct Server {
    /// Which server it is.
    pub id: u32,
    /// What it holds, by number.
    pub records: [Record; NUMBERS as usize],
    /// Its counters.
    pub counters: Counters,
    /// The numbers that it ran.
    pub log: Log,
}

/// What a server answered to a drive in this phase.
#[repr(C)]
#[derive(Clone, Copy, Debug, Default, PartialEq, Eq)]
pub struct Slot {
    /// 0 is no answer, and the rest is then ignored.
    pub counted: u32,
    /// Its arrival word.
    pub arrival: MaybeWord,
    /// What it has accepted.
    pub accepted: MaybeVote,
}

/// A drive.
#[repr(C)]
#[derive(Clone, Copy, Debug, Default, PartialEq, Eq)]
pub struct Drive {
    /// The number that it carries.
    pub t: u32,
    /// For whom.
    pub coordinator: u32,
    /// Its ballot.
    pub ballot: u32,
    /// 0 prepare, 1 pre-accept, 2 accept, 3 commit.
    pub phase: u32,
    /// The pieces of T.
    pub pieces: Pieces,
    /// The answers of this phase, by server.
    pub answers: [Slot; SERVERS as usize],
    /// The set of phases 2 and 3.
    pub chosen: MaybeSet,
    /// The highest promise seen, 0 if none.
    pub seen: u32,
}

/// What a call answers that writes bytes.
#[repr(C)]
#[derive(Clone, Copy, Debug, Default, PartialEq, Eq)]
pub struct Answer {
    /// The refusal or 0.
    pub refusal: u32,
    /// How many bytes were written, 0 on a refusal.
    pub length: u32,
}

/// What a run answers.
#[repr(C)]
#[derive(Clone, Copy, Debug, Default, PartialEq, Eq)]
pub struct Counted {
    /// The refusal or 0.
    pub refusal: u32,
    /// How many numbers ran.
    pub many: u32,
}

/// What is wanted.
#[repr(C)]
#[derive(Clone, Copy, Debug, Default, PartialEq, Eq)]
pub struct Wants {
    /// The refusal or 0.
    pub refusal: u32,
    /// Shard by shard, what committed sets name and is not committed here.
    pub set: Set,
}

/// A counter, or a result, that may be missing.
#[repr(C)]
#[derive(Clone, Copy, Debug, Default, PartialEq, Eq)]
pub struct Reading {
    /// 0 is none.
    pub some: u32,
    /// The value.
    pub value: i32,
    /// Of a counter: 1 if it is full, else 0. Of a result: as held, not 0 where [`Value::kept`] says so.
    pub kept: u32,
}

/// A number of the log, that may be missing.
#[repr(C)]
#[derive(Clone, Copy, Debug, Default, PartialEq, Eq)]
pub struct LogEntry {
    /// 0 is none.
    pub some: u32,
    /// The number.
    pub number: u32,
}

/// What is due.
#[repr(C)]
#[derive(Clone, Copy, Debug, Default, PartialEq, Eq)]
pub struct Due {
    /// The refusal or 0.
    pub refusal: u32,
    /// The length of the message.
    pub length: u32,
    /// The servers that it is due to: bit s for server s.
    pub servers: u32,
}

/// A next ballot.
#[repr(C)]
#[derive(Clone, Copy, Debug, Default, PartialEq, Eq)]
pub struct Ballot {
    /// The refusal or 0.
    pub refusal: u32,
    /// The ballot.
    pub ballot: u32,
}

/// What bytes say.
#[repr(C)]
#[derive(Clone, Copy, Debug, Default, PartialEq, Eq)]
pub struct Decoded {
    /// The refusal or 0.
    pub refusal: u32,
    /// The message, which is all 0 on a refusal.
    pub message: Message,
}

/// Memory that was cleared.
impl Default for Log {
    fn default() -> Log {
        Log { list: [0; NUMBERS as usize], count: 0 }
    }
}

/// Memory that was cleared.
impl Default for Server {
    fn default() -> Server {
        let records = [Record::default(); NUMBERS as usize];
        Server { id: 0, records, counters: Counters::default(), log: Log::default() }
    }
}
