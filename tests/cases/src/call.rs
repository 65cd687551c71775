//! The column CALL.

use crate::bytes;
use crate::fields;
use crate::message;
use crate::state::State;
use crate::words::{number, Read, Words};
use engine::layout::{Message, Pieces};

/// The bytes of an output unless a call says otherwise.
const OUTPUT: usize = 200;

pub enum Call {
    Fresh(u32),
    Take(Vec<u8>),
    Run,
    RunAll,
    Wanted,
    Counter(u32),
    Log(u32),
    Result(u32, u32),
    Start { t: u32, coordinator: u32, pieces: Pieces },
    Recover { t: u32, coordinator: u32, floor: u32, pieces: Pieces },
    Again,
    MoveOn,
    Reply(Vec<u8>),
    Due,
    Next { above: u32, coordinator: u32 },
    Decode(Vec<u8>),
    Encode(Box<Message>),
}

/// A call and how many bytes of output are lent to it.
pub struct Lent {
    pub call: Call,
    pub output: usize,
}

pub fn call(text: &str) -> Read<Lent> {
    let (said, output) = match text.rsplit_once(" into ") {
        Some((said, output)) => (said, Some(number(output.trim())? as usize)),
        None => (text, None),
    };
    let mut words = Words::of(said);
    let call = read(&mut words)?;
    words.end()?;
    if output.is_some() && !matches!(call, Call::Take(_) | Call::Due | Call::Encode(_)) {
        return Err("this call has no output".to_string());
    }
    Ok(Lent { call, output: output.unwrap_or(OUTPUT) })
}

fn read(words: &mut Words) -> Read<Call> {
    Ok(match words.take()? {
        "fresh" => Call::Fresh(words.number()?),
        "take" => Call::Take(message::given(words)?),
        "run" if words.eat("all") => Call::RunAll,
        "run" => Call::Run,
        "wanted" => Call::Wanted,
        "counter" => Call::Counter(words.number()?),
        "log" => Call::Log(words.number()?),
        "result" => Call::Result(words.t()?, words.number()?),
        "start" => Call::Start {
            t: words.t()?,
            coordinator: words.number_after("coordinator")?,
            pieces: message::pieces(words)?,
        },
        "recover" => Call::Recover {
            t: words.t()?,
            coordinator: words.number_after("coordinator")?,
            floor: words.number_after("floor")?,
            pieces: message::pieces(words)?,
        },
        "again" => Call::Again,
        "move" => {
            words.expect("on")?;
            Call::MoveOn
        }
        "reply" => Call::Reply(message::given(words)?),
        "due" => Call::Due,
        "next" => Call::Next { above: words.number_after("above")?, coordinator: words.number_after("for")? },
        "decode" if matches!(words.peek(), "bytes" | "no") => Call::Decode(bytes::hex(words)?),
        "decode" => Call::Decode(bytes::digits(words)?),
        "encode" => Call::Encode(Box::new(lent_message(words.rest())?)),
        other => return Err(format!("there is no call `{other}`")),
    })
}

/// A message as a struct, with `; raw FIELD = N` for what its text can't say.
fn lent_message(text: &str) -> Read<Message> {
    let mut parts = text.split(';').map(Words::of);
    let mut words = parts.next().unwrap_or_else(|| Words::of(""));
    let mut lent = message::message(&mut words)?;
    words.end()?;
    for mut words in parts {
        words.expect("raw")?;
        fields::store_in_message(&mut lent, &mut words)?;
    }
    Ok(lent)
}

impl Call {
    /// Each call is lent one kind of state, or none.
    pub fn is_lent(&self, state: &State) -> Read<()> {
        let (fits, wants) = match self {
            Call::Next { .. } | Call::Decode(_) | Call::Encode(_) => (*state == State::None, "no state, `-`"),
            Call::Fresh(_)
            | Call::Take(_)
            | Call::Run
            | Call::RunAll
            | Call::Wanted
            | Call::Counter(_)
            | Call::Log(_)
            | Call::Result(..) => (matches!(state, State::Server(_)), "a server"),
            _ => (matches!(state, State::Drive(_)), "a drive"),
        };
        if fits {
            Ok(())
        } else {
            Err(format!("this call is lent {wants}"))
        }
    }
}
