//! Messages as bytes by the runner's own table, and bytes as text. Neither the model nor the library has a part in it.

use crate::message::{items, Item};
use crate::words::{Read, Words};
use engine::layout::{Message, Set};

/// The bytes of a message; of a code that no message has, the code alone. Behind a count above eight stand the eight that there are.
pub fn write(message: &Message) -> Vec<u8> {
    let mut out = message.code.to_be_bytes().to_vec();
    items(message.code).unwrap_or(&[]).iter().for_each(|item| write_item(&mut out, message, *item));
    out
}

fn write_item(out: &mut Vec<u8>, message: &Message, item: Item) {
    match item {
        Item::T => number(out, message.t),
        Item::Server => number(out, message.server),
        Item::Ballot | Item::Asked => number(out, message.ballot),
        Item::Promise => number(out, message.promise),
        Item::Ran => number(out, message.ran),
        Item::Set => set(out, &message.set),
        Item::Word => word(out, message.word),
        Item::Pieces => {
            number(out, message.pieces.count);
            for piece in message.pieces.list.iter().take(message.pieces.count as usize) {
                [piece.shard, piece.key, piece.kind, piece.operand as u32].iter().for_each(|part| number(out, *part));
            }
        }
        Item::Arrived => {
            number(out, message.arrival.some);
            if message.arrival.some != 0 {
                word(out, message.arrival.word);
            }
        }
        Item::Accepted => {
            number(out, message.accepted.some);
            if message.accepted.some != 0 {
                number(out, message.accepted.ballot);
                set(out, &message.accepted.set);
            }
        }
        Item::Values => {
            number(out, message.values.count);
            for value in message.values.list.iter().take(message.values.count as usize) {
                number(out, value.value as u32);
                number(out, value.kept);
            }
        }
    }
}

fn number(out: &mut Vec<u8>, number: u32) {
    out.extend(number.to_be_bytes());
}

/// An unsigned hyper: the high half first.
fn word(out: &mut Vec<u8>, word: u64) {
    number(out, (word >> 32) as u32);
    number(out, word as u32);
}

fn set(out: &mut Vec<u8>, set: &Set) {
    [set.w0, set.w1, set.w2, set.w3].iter().for_each(|each| word(out, *each));
}

/// The message of these bytes, to be shown. It is one only if it is written as just these bytes.
pub fn read(bytes: &[u8]) -> Option<Message> {
    let mut numbers = bytes.chunks(4).map(|four| four.iter().fold(0u32, |high, low| high << 8 | u32::from(*low)));
    let mut message = Message { code: numbers.next()?, ..Message::default() };
    for item in items(message.code)? {
        read_item(&mut message, *item, &mut numbers)?;
    }
    Some(message).filter(|message| write(message) == bytes)
}

fn read_item(message: &mut Message, item: Item, from: &mut dyn Iterator<Item = u32>) -> Option<()> {
    match item {
        Item::T => message.t = from.next()?,
        Item::Server => message.server = from.next()?,
        Item::Ballot | Item::Asked => message.ballot = from.next()?,
        Item::Promise => message.promise = from.next()?,
        Item::Ran => message.ran = from.next()?,
        Item::Set => message.set = read_set(from)?,
        Item::Word => message.word = read_word(from)?,
        Item::Pieces => {
            message.pieces.count = from.next()?;
            for piece in message.pieces.list.get_mut(..message.pieces.count as usize)? {
                (piece.shard, piece.key, piece.kind) = (from.next()?, from.next()?, from.next()?);
                piece.operand = from.next()? as i32;
            }
        }
        Item::Arrived => {
            message.arrival.some = from.next()?;
            if message.arrival.some != 0 {
                message.arrival.word = read_word(from)?;
            }
        }
        Item::Accepted => {
            message.accepted.some = from.next()?;
            if message.accepted.some != 0 {
                message.accepted.ballot = from.next()?;
                message.accepted.set = read_set(from)?;
            }
        }
        Item::Values => {
            message.values.count = from.next()?;
            for value in message.values.list.get_mut(..message.values.count as usize)? {
                (value.value, value.kept) = (from.next()? as i32, from.next()?);
            }
        }
    }
    Some(())
}

fn read_word(from: &mut dyn Iterator<Item = u32>) -> Option<u64> {
    Some(u64::from(from.next()?) << 32 | u64::from(from.next()?))
}

fn read_set(from: &mut dyn Iterator<Item = u32>) -> Option<Set> {
    Some(Set { w0: read_word(from)?, w1: read_word(from)?, w2: read_word(from)?, w3: read_word(from)? })
}

/// `bytes 00 00 00 04` or `no bytes`. Bytes may stand in groups, `00000004`.
pub fn hex(words: &mut Words) -> Read<Vec<u8>> {
    if words.eat("no") {
        words.expect("bytes")?;
        return Ok(Vec::new());
    }
    words.expect("bytes")?;
    digits(words)
}

/// All that is left of the text, as bytes.
pub fn digits(words: &mut Words) -> Read<Vec<u8>> {
    let mut bytes = Vec::new();
    for group in words.rest().split_whitespace() {
        if group.len() % 2 != 0 || !group.bytes().all(|digit| digit.is_ascii_hexdigit()) {
            return Err(format!("`{group}` is no bytes"));
        }
        let byte = |place: usize| u8::from_str_radix(&group[place..place + 2], 16);
        bytes.extend((0..group.len()).step_by(2).flat_map(byte));
    }
    if bytes.is_empty() {
        return Err("bytes are wanted; none are `no bytes`".to_string());
    }
    Ok(bytes)
}

pub fn show_hex(bytes: &[u8]) -> String {
    if bytes.is_empty() {
        return "no bytes".to_string();
    }
    let shown: Vec<String> = bytes.iter().map(|byte| format!("{byte:02x}")).collect();
    format!("bytes {}", shown.join(" "))
}
