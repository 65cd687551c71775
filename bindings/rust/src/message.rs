//! The fourteen messages, as an enum and as bytes.

use crate::cluster::{LONGEST, PIECES};
use crate::layout::{self, MaybeVote, MaybeWord, Piece, Set, Values};
use crate::pieces::{counted, listed};
use crate::{raw, Refusal};

/// A message. The fields stand in the order in which they are sent.
///
/// Any number may stand in a field: who takes the message judges it. Only a list with more than eight entries has no bytes.
///
/// ```
/// use drobulets::Message;
///
/// let inquire = Message::Inquire { t: 9 };
/// let bytes = inquire.encode()?;
/// assert_eq!(bytes, [0, 0, 0, 4, 0, 0, 0, 9]);
/// assert_eq!(Message::decode(&bytes)?, inquire);
/// # Ok::<(), drobulets::Refusal>(())
/// ```
#[derive(Clone, Debug, PartialEq, Eq, Hash)]
#[allow(missing_docs)] // The fields are document 01's: T, server, ballot, pieces, set.
pub enum Message {
    /// 0, to a server: what came before T in a conflict?
    PreAccept { t: u32, ballot: u32, pieces: Vec<Piece> },
    /// 1, to a server: accept this set.
    Accept { t: u32, ballot: u32, pieces: Vec<Piece>, set: Set },
    /// 2, to a server: T is committed with this set; run what is ready.
    Commit { t: u32, pieces: Vec<Piece>, set: Set },
    /// 3, to a server: promise this ballot, and say what arrived and what is accepted.
    Prepare { t: u32, ballot: u32, pieces: Vec<Piece> },
    /// 4, to a server: is T committed?
    Inquire { t: u32 },
    /// 5, to a server: the results of T.
    Fetch { t: u32 },
    /// 16, to a drive: the arrival word.
    PreAcceptOk { t: u32, server: u32, ballot: u32, word: u64 },
    /// 17, to a drive: accepted.
    AcceptOk { t: u32, server: u32, ballot: u32 },
    /// 18, to the host of a drive or to who gave a Done: T is committed here, and so many numbers ran then.
    CommitOk { t: u32, server: u32, ran: u32 },
    /// 19, to a drive: promised; what arrived and what is accepted.
    PrepareOk { t: u32, server: u32, ballot: u32, arrival: Option<u64>, accepted: Option<Vote> },
    /// 20, to a drive or a server: T is committed with this set. A server takes it as a Commit.
    Done { t: u32, pieces: Vec<Piece>, set: Set },
    /// 21, to a drive: a higher ballot is promised than was asked.
    Behind { t: u32, server: u32, asked: u32, promise: u32 },
    /// 22, to who inquired or fetched: T is not committed here, or has not run.
    NotYet { t: u32, server: u32 },
    /// 23, to who fetched: the results of T's pieces on the server's shard.
    Results { t: u32, server: u32, values: Vec<Value> },
}

/// A set and the ballot at which it was accepted.
#[derive(Clone, Copy, Debug, Default, PartialEq, Eq, Hash)]
pub struct Vote {
    /// The ballot.
    pub ballot: u32,
    /// The set.
    pub set: Set,
}

/// The result of a piece, or a counter.
///
/// A counter is full from an add whose sum would leave the signed 32-bit range until the next put. Such an add leaves the value, and so
/// does every add while the counter is full. A kept value is that of a full counter: show it as no total.
#[derive(Clone, Copy, Debug, Default, PartialEq, Eq, Hash)]
pub struct Value {
    /// What was read or put, or the sum; where it is kept, the counter's value as it was. Of a counter, what it stands at.
    pub value: i32,
    /// Of a result, whether an add was left out, since it did not fit or the counter was full before it, or a full counter was read;
    /// never of a put. Of a counter, whether it is full.
    pub kept: bool,
}

impl Message {
    /// The message that the bytes say. Refuses 10, 12, 11: the first fault from the front.
    pub fn decode(bytes: &[u8]) -> Result<Message, Refusal> {
        let decoded = raw::decode(bytes);
        Refusal::or(decoded.refusal, decoded.message).and_then(|flat| Message::try_from(&flat))
    }

    /// Its bytes. Refuses 12, a list with more than eight entries.
    pub fn encode(&self) -> Result<Vec<u8>, Refusal> {
        let mut output = [0; LONGEST];
        let length = self.encode_into(&mut output)?;
        Ok(output[..length].to_vec())
    }

    /// Writes its bytes to the front of the output, and no others. Gives their number. Refuses 12, 14.
    pub fn encode_into(&self, output: &mut [u8]) -> Result<usize, Refusal> {
        let answer = raw::encode(&self.into(), output);
        Refusal::or(answer.refusal, answer.length as usize)
    }

    /// Its code, which its bytes begin with.
    pub fn code(&self) -> u32 {
        match self {
            Message::PreAccept { .. } => 0,
            Message::Accept { .. } => 1,
            Message::Commit { .. } => 2,
            Message::Prepare { .. } => 3,
            Message::Inquire { .. } => 4,
            Message::Fetch { .. } => 5,
            Message::PreAcceptOk { .. } => 16,
            Message::AcceptOk { .. } => 17,
            Message::CommitOk { .. } => 18,
            Message::PrepareOk { .. } => 19,
            Message::Done { .. } => 20,
            Message::Behind { .. } => 21,
            Message::NotYet { .. } => 22,
            Message::Results { .. } => 23,
        }
    }

    /// The transaction number. Every message has one.
    pub fn t(&self) -> u32 {
        match *self {
            Message::PreAccept { t, .. }
            | Message::Accept { t, .. }
            | Message::Commit { t, .. }
            | Message::Prepare { t, .. }
            | Message::Inquire { t }
            | Message::Fetch { t }
            | Message::PreAcceptOk { t, .. }
            | Message::AcceptOk { t, .. }
            | Message::CommitOk { t, .. }
            | Message::PrepareOk { t, .. }
            | Message::Done { t, .. }
            | Message::Behind { t, .. }
            | Message::NotYet { t, .. }
            | Message::Results { t, .. } => t,
        }
    }
}

/// The flat struct of a message, the fields that it does not have 0.
impl From<&Message> for layout::Message {
    fn from(message: &Message) -> layout::Message {
        let blank = layout::Message { code: message.code(), ..Default::default() };
        match *message {
            Message::PreAccept { t, ballot, ref pieces } | Message::Prepare { t, ballot, ref pieces } => {
                layout::Message { t, ballot, pieces: pieces[..].into(), ..blank }
            }
            Message::Accept { t, ballot, ref pieces, set } => {
                layout::Message { t, ballot, pieces: pieces[..].into(), set, ..blank }
            }
            Message::Commit { t, ref pieces, set } | Message::Done { t, ref pieces, set } => {
                layout::Message { t, pieces: pieces[..].into(), set, ..blank }
            }
            Message::Inquire { t } | Message::Fetch { t } => layout::Message { t, ..blank },
            Message::PreAcceptOk { t, server, ballot, word } => layout::Message { t, server, ballot, word, ..blank },
            Message::AcceptOk { t, server, ballot } => layout::Message { t, server, ballot, ..blank },
            Message::CommitOk { t, server, ran } => layout::Message { t, server, ran, ..blank },
            Message::NotYet { t, server } => layout::Message { t, server, ..blank },
            Message::PrepareOk { t, server, ballot, arrival, accepted } => {
                let (arrival, accepted) = (arrival.into(), accepted.into());
                layout::Message { t, server, ballot, arrival, accepted, ..blank }
            }
            Message::Behind { t, server, asked, promise } => {
                layout::Message { t, server, ballot: asked, promise, ..blank }
            }
            Message::Results { t, server, ref values } => {
                layout::Message { t, server, values: values[..].into(), ..blank }
            }
        }
    }
}

/// The message of a flat struct, by the fields that its code has. Refuses 12: an unknown code, a count above eight.
impl TryFrom<&layout::Message> for Message {
    type Error = Refusal;

    fn try_from(flat: &layout::Message) -> Result<Message, Refusal> {
        let layout::Message { code, t, server, ballot, promise, set, word, ran, .. } = *flat;
        let pieces = || few(&flat.pieces.list, flat.pieces.count);
        Ok(match code {
            0 => Message::PreAccept { t, ballot, pieces: pieces()? },
            1 => Message::Accept { t, ballot, pieces: pieces()?, set },
            2 => Message::Commit { t, pieces: pieces()?, set },
            3 => Message::Prepare { t, ballot, pieces: pieces()? },
            4 => Message::Inquire { t },
            5 => Message::Fetch { t },
            16 => Message::PreAcceptOk { t, server, ballot, word },
            17 => Message::AcceptOk { t, server, ballot },
            18 => Message::CommitOk { t, server, ran },
            19 => {
                let (arrival, accepted) = (flat.arrival.into(), flat.accepted.into());
                Message::PrepareOk { t, server, ballot, arrival, accepted }
            }
            20 => Message::Done { t, pieces: pieces()?, set },
            21 => Message::Behind { t, server, asked: ballot, promise },
            22 => Message::NotYet { t, server },
            23 => {
                let values = few(&flat.values.list, flat.values.count)?;
                Message::Results { t, server, values: values.into_iter().map(Value::from).collect() }
            }
            _ => return Err(Refusal::NotTaken),
        })
    }
}

/// The entries of a list up to a count that must be no more than eight.
fn few<T: Clone>(list: &[T; PIECES], count: u32) -> Result<Vec<T>, Refusal> {
    if count as usize > PIECES {
        return Err(Refusal::NotTaken);
    }
    Ok(listed(list, count).to_vec())
}

/// The first eight are listed and all are counted, so that the library refuses more than eight, by 12.
impl From<&[Value]> for Values {
    fn from(values: &[Value]) -> Values {
        let mut list = [layout::Value::default(); PIECES];
        list.iter_mut().zip(values).for_each(|(to, value)| *to = (*value).into());
        Values { list, count: counted(values) }
    }
}

impl From<Value> for layout::Value {
    fn from(Value { value, kept }: Value) -> layout::Value {
        layout::Value { value, kept: kept.into() }
    }
}

impl From<layout::Value> for Value {
    fn from(layout::Value { value, kept }: layout::Value) -> Value {
        Value { value, kept: kept != 0 }
    }
}

impl From<Option<u64>> for MaybeWord {
    fn from(word: Option<u64>) -> MaybeWord {
        word.map_or(MaybeWord::default(), |word| MaybeWord { some: 1, word })
    }
}

impl From<MaybeWord> for Option<u64> {
    fn from(maybe: MaybeWord) -> Option<u64> {
        (maybe.some != 0).then_some(maybe.word)
    }
}

impl From<Option<Vote>> for MaybeVote {
    fn from(vote: Option<Vote>) -> MaybeVote {
        vote.map_or(MaybeVote::default(), |Vote { ballot, set }| MaybeVote { some: 1, ballot, set })
    }
}

impl From<MaybeVote> for Option<Vote> {
    fn from(MaybeVote { some, ballot, set }: MaybeVote) -> Option<Vote> {
        (some != 0).then_some(Vote { ballot, set })
    }
}
