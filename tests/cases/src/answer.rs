//! The column ANSWER.

use crate::bytes;
use crate::call::Call;
use crate::message;
use crate::parts;
use crate::words::{number, Read, Words};
use engine::layout::{Message, Set, Value};

#[derive(Clone, Debug, PartialEq, Eq)]
pub enum Answer {
    /// The refusal's number, every other number of the answer being 0.
    Refused(u32),
    Ok,
    /// What a reader shows where there is nothing, every number of the answer being 0.
    Nothing,
    Number(u32),
    Value(Value),
    Set(Set),
    Bytes(Vec<u8>),
    /// The message due and its servers, bit s for server s.
    Due(Vec<u8>, u32),
    Message(Box<Message>),
    /// An answer that no row can want.
    Odd(String),
}

/// The answer that a text says for a call.
pub fn answer(call: &Call, text: &str) -> Read<Answer> {
    let mut words = Words::of(text);
    let answer = if words.eat("refused") { refused(call, &mut words)? } else { told(call, &mut words)? };
    words.end()?;
    Ok(answer)
}

fn refused(call: &Call, words: &mut Words) -> Read<Answer> {
    let number = words.number()?;
    if !(1..=14).contains(&number) {
        return Err(format!("{number} is no number of a refusal"));
    }
    if matches!(call, Call::Counter(_) | Call::Log(_) | Call::Result(..)) {
        return Err("a reader refuses nothing".to_string());
    }
    Ok(Answer::Refused(number))
}

fn told(call: &Call, words: &mut Words) -> Read<Answer> {
    Ok(match call {
        Call::Take(_) => Answer::Bytes(message::given(words)?),
        Call::Run | Call::RunAll | Call::Next { .. } => Answer::Number(words.number()?),
        Call::Wanted => Answer::Set(parts::set(words)?),
        Call::Counter(_) | Call::Log(_) | Call::Result(..) if words.eat("none") => Answer::Nothing,
        Call::Log(_) => Answer::Number(words.number()?),
        Call::Counter(_) | Call::Result(..) => Answer::Value(parts::value(words.rest())?),
        Call::Due => due(words.rest())?,
        Call::Decode(_) => Answer::Message(Box::new(message::message(words)?)),
        Call::Encode(_) => {
            words.eat("bytes");
            Answer::Bytes(bytes::digits(words)?)
        }
        Call::Fresh(_) | Call::Start { .. } | Call::Recover { .. } | Call::Again | Call::MoveOn | Call::Reply(_) => {
            words.expect("ok")?;
            Answer::Ok
        }
    })
}

/// A message, ` to `, and servers.
fn due(text: &str) -> Read<Answer> {
    let (message, servers) = text.rsplit_once(" to ").ok_or("a message, ` to ` and the servers are wanted")?;
    let mut words = Words::of(message);
    let bytes = message::given(&mut words)?;
    words.end()?;
    let bits = servers.split_whitespace().try_fold(0, |bits, server| match number(server)? {
        server @ 0..=31 => Ok(bits | 1 << server),
        server => Err(format!("there is no bit for server {server}")),
    })?;
    Ok(Answer::Due(bytes, bits))
}

/// An answer in the words of the column.
pub fn show(call: &Call, answer: &Answer) -> String {
    match answer {
        Answer::Refused(number) => format!("refused {number}"),
        Answer::Ok => "ok".to_string(),
        Answer::Nothing => "none".to_string(),
        Answer::Number(number) => number.to_string(),
        Answer::Value(value) => parts::show_value(value),
        Answer::Set(set) => parts::show_set(set),
        Answer::Bytes(written) if matches!(call, Call::Encode(_)) => bytes::show_hex(written),
        Answer::Bytes(written) => message::show_bytes(written),
        Answer::Due(written, bits) => {
            let servers = (0..32).filter(|server| bits >> server & 1 == 1).map(|server: u32| server.to_string());
            format!("{} to {}", message::show_bytes(written), servers.collect::<Vec<_>>().join(" "))
        }
        Answer::Message(message) => message::show(message),
        Answer::Odd(what) => what.clone(),
    }
}
