//! The messages as document 01 lists them, and as text: a name, then the fields in their order.

use crate::bytes;
use crate::parts;
use crate::words::{Read, Words};
use engine::layout::{Message, Pieces, Values};

/// A field of a message.
#[derive(Clone, Copy, Debug, PartialEq, Eq)]
pub enum Item {
    T,
    Server,
    Ballot,
    /// The ballot asked, of a Behind.
    Asked,
    Promise,
    Pieces,
    Set,
    Word,
    /// An optional arrival word.
    Arrived,
    /// An optional ballot and set.
    Accepted,
    Values,
    /// The count of what ran.
    Ran,
}

use Item::{Accepted, Arrived, Asked, Ballot, Promise, Ran, Server, Set, Word, T};

/// Code, message, fields: the table of document 01, line by line, with the count that document 02 gives a CommitOK.
pub const MESSAGES: [(u32, &str, &[Item]); 14] = [
    (0, "PreAccept", &[T, Ballot, Item::Pieces]),
    (1, "Accept", &[T, Ballot, Item::Pieces, Set]),
    (2, "Commit", &[T, Item::Pieces, Set]),
    (3, "Prepare", &[T, Ballot, Item::Pieces]),
    (4, "Inquire", &[T]),
    (5, "Fetch", &[T]),
    (16, "PreAcceptOK", &[T, Server, Ballot, Word]),
    (17, "AcceptOK", &[T, Server, Ballot]),
    (18, "CommitOK", &[T, Server, Ran]),
    (19, "PrepareOK", &[T, Server, Ballot, Arrived, Accepted]),
    (20, "Done", &[T, Item::Pieces, Set]),
    (21, "Behind", &[T, Server, Asked, Promise]),
    (22, "NotYet", &[T, Server]),
    (23, "Results", &[T, Server, Item::Values]),
];

/// The fields of a code, if it is one of the fourteen.
pub fn items(code: u32) -> Option<&'static [Item]> {
    MESSAGES.iter().find(|message| message.0 == code).map(|message| message.2)
}

/// A message by its text. All that its code does not have is 0.
pub fn message(words: &mut Words) -> Read<Message> {
    let name = words.take()?;
    if name == "code" {
        let code = words.number()?;
        return match items(code) {
            None => Ok(Message { code, ..Message::default() }),
            Some(_) => Err(format!("code {code} has a message, with a name")),
        };
    }
    let known = MESSAGES.iter().find(|message| message.1 == name);
    let (code, _, items) = known.ok_or(format!("there is no message `{name}`"))?;
    let mut message = Message { code: *code, ..Message::default() };
    items.iter().try_for_each(|item| field(&mut message, *item, words))?;
    Ok(message)
}

fn field(message: &mut Message, item: Item, words: &mut Words) -> Read<()> {
    match item {
        T => message.t = words.t()?,
        Server => message.server = words.number_after("server")?,
        Ballot => message.ballot = words.number_after("ballot")?,
        Asked => message.ballot = words.number_after("asked")?,
        Promise => message.promise = words.number_after("promise")?,
        Ran => message.ran = words.number_after("ran")?,
        Item::Pieces => message.pieces = pieces(words)?,
        Item::Values => message.values = values(words)?,
        Set | Word | Arrived | Accepted => {
            words.expect(label(item))?;
            match item {
                Set => message.set = parts::set(words)?,
                Word => message.word = parts::word(words)?,
                Arrived => message.arrival = parts::maybe_word(words)?,
                _ => message.accepted = parts::maybe_vote(words)?,
            }
        }
    }
    Ok(())
}

fn label(item: Item) -> &'static str {
    match item {
        Set => "set",
        Word => "word",
        Arrived => "arrived",
        _ => "accepted",
    }
}

/// `(0,3,put,5) ..`, or `no pieces`, or `pieces of 9 (..)`.
pub fn pieces(words: &mut Words) -> Read<Pieces> {
    if words.eat("no") {
        words.expect("pieces")?;
        return Ok(Pieces::default());
    }
    let counted = words.eat("pieces");
    if counted && words.peek() != "of" {
        return Err("`pieces` in a call has `of 9` behind it".to_string());
    }
    parts::pieces(words)
}

fn values(words: &mut Words) -> Read<Values> {
    words.expect("values")?;
    if words.eat("none") {
        return Ok(Values::default());
    }
    parts::values(words)
}

/// A message to be read: by its text, or `bytes 00 00 ..`, or `no bytes`.
pub fn given(words: &mut Words) -> Read<Vec<u8>> {
    if matches!(words.peek(), "bytes" | "no") {
        return bytes::hex(words);
    }
    Ok(bytes::write(&message(words)?))
}

/// The message of these bytes as text, if they have one.
pub fn show_bytes(given: &[u8]) -> String {
    bytes::read(given).map_or_else(|| bytes::show_hex(given), |message| show(&message))
}

pub fn show(message: &Message) -> String {
    let known = MESSAGES.iter().find(|known| known.0 == message.code);
    match known {
        None => format!("code {}", message.code),
        Some((_, name, items)) => {
            items.iter().fold(name.to_string(), |shown, item| format!("{shown} {}", show_field(message, *item)))
        }
    }
}

fn show_field(message: &Message, item: Item) -> String {
    match item {
        T => format!("T{}", message.t),
        Server => format!("server {}", message.server),
        Ballot => format!("ballot {}", message.ballot),
        Asked => format!("asked {}", message.ballot),
        Promise => format!("promise {}", message.promise),
        Ran => format!("ran {}", message.ran),
        Item::Pieces => match message.pieces.count {
            0 => "no pieces".to_string(),
            1..=8 => parts::show_pieces(&message.pieces),
            _ => format!("pieces {}", parts::show_pieces(&message.pieces)),
        },
        Set => format!("set {}", parts::show_set(&message.set)),
        Word => format!("word {}", parts::show_word(message.word)),
        Arrived => format!("arrived {}", parts::show_maybe_word(&message.arrival)),
        Accepted => format!("accepted {}", parts::show_maybe_vote(&message.accepted)),
        Item::Values => format!("values {}", parts::show_values(&message.values, "none")),
    }
}
