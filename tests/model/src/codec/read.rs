//! Reading items from the front of the bytes. Decoding judges the bytes alone: numbers out of their range decode.

use crate::ballots::Vote;
use crate::counters::{Value, Values};
use crate::message::Message;
use crate::pieces::{Piece, Pieces, MOST};
use crate::refusal::{refuse_if, Refusal};
use crate::sets::Set;

/// The bytes not yet read.
pub struct Items<'a> {
    rest: &'a [u8],
}

type Read<T> = Result<T, Refusal>;

impl<'a> Items<'a> {
    pub fn of(bytes: &'a [u8]) -> Items<'a> {
        Items { rest: bytes }
    }

    pub fn at_end(&self) -> bool {
        self.rest.is_empty()
    }

    /// A message: its code, then the fields of that code. An unknown code is judged before anything that follows it.
    pub fn message(&mut self) -> Read<Message> {
        let code = self.uint()?;
        refuse_if(!Message::CODES.contains(&code), Refusal::Unknown)?;
        let t = self.uint()?;
        match code {
            0 => Ok(Message::PreAccept { t, ballot: self.uint()?, pieces: self.pieces()? }),
            1 => Ok(Message::Accept { t, ballot: self.uint()?, pieces: self.pieces()?, set: self.set()? }),
            2 => Ok(Message::Commit { t, pieces: self.pieces()?, set: self.set()? }),
            3 => Ok(Message::Prepare { t, ballot: self.uint()?, pieces: self.pieces()? }),
            4 => Ok(Message::Inquire { t }),
            5 => Ok(Message::Fetch { t }),
            20 => Ok(Message::Done { t, pieces: self.pieces()?, set: self.set()? }),
            _ => self.answer(code, t),
        }
    }

    /// The answers that name their server.
    fn answer(&mut self, code: u32, t: u32) -> Read<Message> {
        let server = self.uint()?;
        match code {
            16 => Ok(Message::PreAcceptOk { t, server, ballot: self.uint()?, word: self.word()? }),
            17 => Ok(Message::AcceptOk { t, server, ballot: self.uint()? }),
            18 => Ok(Message::CommitOk { t, server, ran: self.uint()? }),
            19 => Ok(Message::PrepareOk {
                t,
                server,
                ballot: self.uint()?,
                arrival: self.optional(Items::word)?,
                accepted: self.optional(Items::vote)?,
            }),
            21 => Ok(Message::Behind { t, server, asked: self.uint()?, promise: self.uint()? }),
            22 => Ok(Message::NotYet { t, server }),
            _ => Ok(Message::Results { t, server, values: self.values()? }),
        }
    }

    fn pieces(&mut self) -> Read<Pieces> {
        let mut pieces = Pieces { count: self.count()?, ..Pieces::default() };
        for place in 0..pieces.count as usize {
            pieces.list[place] =
                Piece { shard: self.uint()?, key: self.uint()?, kind: self.uint()?, operand: self.int()? };
        }
        Ok(pieces)
    }

    fn values(&mut self) -> Read<Values> {
        let mut values = Values { count: self.count()?, ..Values::default() };
        for place in 0..values.count as usize {
            values.list[place] = Value { value: self.int()?, kept: self.boolean()? };
        }
        Ok(values)
    }

    fn vote(&mut self) -> Read<Vote> {
        Ok(Vote { ballot: self.uint()?, set: self.set()? })
    }

    fn set(&mut self) -> Read<Set> {
        Ok(Set([self.word()?, self.word()?, self.word()?, self.word()?]))
    }

    /// A count is judged before its entries are looked for.
    fn count(&mut self) -> Read<u32> {
        let count = self.uint()?;
        refuse_if(count as usize > MOST, Refusal::Unknown)?;
        Ok(count)
    }

    /// Optional data: a boolean, then the item if it is true.
    fn optional<T>(&mut self, item: fn(&mut Self) -> Read<T>) -> Read<Option<T>> {
        if self.boolean()? {
            Ok(Some(item(self)?))
        } else {
            Ok(None)
        }
    }

    fn boolean(&mut self) -> Read<bool> {
        let number = self.uint()?;
        refuse_if(number > 1, Refusal::Unknown)?;
        Ok(number == 1)
    }

    fn uint(&mut self) -> Read<u32> {
        Ok(u32::from_be_bytes(self.take()?))
    }

    fn int(&mut self) -> Read<i32> {
        Ok(i32::from_be_bytes(self.take()?))
    }

    /// An unsigned hyper.
    fn word(&mut self) -> Read<u64> {
        Ok(u64::from_be_bytes(self.take()?))
    }

    /// The next bytes, highest first. All items are multiples of four, so nothing is padded.
    fn take<const N: usize>(&mut self) -> Read<[u8; N]> {
        refuse_if(self.rest.len() < N, Refusal::CutShort)?;
        let (front, rest) = self.rest.split_at(N);
        self.rest = rest;
        let mut bytes = [0u8; N];
        bytes.copy_from_slice(front);
        Ok(bytes)
    }
}
