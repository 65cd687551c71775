//! Messages and states in words, for transcripts that are read by eye.

use model::cluster::numbers_in;
use model::drive::Answer;
use model::pieces::{ADD, PUT, READ};
use model::server::Record;
use model::{Drive, Message, Piece, Pieces, Set, Value, Vote};

/// The numbers of a word: `{1 8}`.
pub fn word(word: u64) -> String {
    let numbers: Vec<String> = numbers_in(word).map(|t| t.to_string()).collect();
    format!("{{{}}}", numbers.join(" "))
}

/// The four words of a set.
pub fn set(set: &Set) -> String {
    set.0.map(word).join(" ")
}

fn set_or_none(held: Option<&Set>) -> String {
    held.map_or("none".to_string(), set)
}

fn word_or_none(held: Option<u64>) -> String {
    held.map_or("none".to_string(), word)
}

fn vote_or(held: Option<Vote>, none: &str) -> String {
    held.map_or(none.to_string(), |vote| format!("{} at {}", set(&vote.set), vote.ballot))
}

/// A piece as document 01 writes it: `(0,3,put,5)`.
pub fn piece(piece: &Piece) -> String {
    let kind = match piece.kind {
        READ => "read".to_string(),
        PUT => "put".to_string(),
        ADD => "add".to_string(),
        other => other.to_string(),
    };
    format!("({},{},{kind},{})", piece.shard, piece.key, piece.operand)
}

pub fn pieces(pieces: &Pieces) -> String {
    pieces.entries().iter().map(piece).collect::<Vec<_>>().join(" ")
}

/// The pieces of a text with any number of `(0,3,put,5)`.
pub fn parse_pieces(text: &str) -> Option<Pieces> {
    let list: Option<Vec<Piece>> = text.split_whitespace().map(parse_piece).collect();
    list.filter(|list| list.len() <= model::pieces::MOST).map(|list| Pieces::of(&list))
}

fn parse_piece(text: &str) -> Option<Piece> {
    let parts: Vec<&str> = text.strip_prefix('(')?.strip_suffix(')')?.split(',').collect();
    let kind = match *parts.get(2)? {
        "read" => READ,
        "put" => PUT,
        "add" => ADD,
        _ => return None,
    };
    Some(Piece {
        shard: parts.first()?.parse().ok()?,
        key: parts.get(1)?.parse().ok()?,
        kind,
        operand: parts.get(3)?.parse().ok()?,
    })
}

/// A result, or a counter as it is read: `5` or `7 kept`.
pub fn value(value: &Value) -> String {
    format!("{}{}", value.value, if value.kept { " kept" } else { "" })
}

/// Results: `5, 7 kept`.
pub fn values(values: &[Value]) -> String {
    values.iter().map(value).collect::<Vec<_>>().join(", ")
}

pub fn message(message: &Message) -> String {
    match message {
        Message::PreAccept { t, ballot, pieces: p } => format!("PreAccept T{t} ballot {ballot} {}", pieces(p)),
        Message::Accept { t, ballot, pieces: p, set: s } => {
            format!("Accept T{t} ballot {ballot} {} set {}", pieces(p), set(s))
        }
        Message::Commit { t, pieces: p, set: s } => format!("Commit T{t} {} set {}", pieces(p), set(s)),
        Message::Prepare { t, ballot, pieces: p } => format!("Prepare T{t} ballot {ballot} {}", pieces(p)),
        Message::Inquire { t } => format!("Inquire T{t}"),
        Message::Fetch { t } => format!("Fetch T{t}"),
        Message::PreAcceptOk { t, server, ballot, word: w } => {
            format!("PreAcceptOK T{t} server {server} ballot {ballot} word {}", word(*w))
        }
        Message::AcceptOk { t, server, ballot } => format!("AcceptOK T{t} server {server} ballot {ballot}"),
        Message::CommitOk { t, server, ran } => format!("CommitOK T{t} server {server} ran {ran}"),
        Message::PrepareOk { t, server, ballot, arrival, accepted } => {
            let (arrival, accepted) = (word_or_none(*arrival), vote_or(*accepted, "nothing"));
            format!("PrepareOK T{t} server {server} ballot {ballot} arrived {arrival} accepted {accepted}")
        }
        Message::Done { t, pieces: p, set: s } => format!("Done T{t} {} set {}", pieces(p), set(s)),
        Message::Behind { t, server, asked, promise } => {
            format!("Behind T{t} server {server} asked {asked} promise {promise}")
        }
        Message::NotYet { t, server } => format!("NotYet T{t} server {server}"),
        Message::Results { t, server, values: v } => format!("Results T{t} server {server}: {}", values(v.entries())),
    }
}

/// The message of these bytes, or that there is none.
pub fn bytes(bytes: &[u8]) -> String {
    match model::codec::decode(bytes) {
        Ok(decoded) => message(&decoded),
        Err(refusal) => format!("{} bytes, refused {}", bytes.len(), refusal.number()),
    }
}

pub fn drive(drive: &Drive) -> String {
    let answered: Vec<String> = drive.addressed().filter(|s| drive.counted(*s)).map(|s| s.to_string()).collect();
    let mut said = format!("T{} ballot {} phase {}", drive.t, drive.ballot, drive.phase);
    if !answered.is_empty() {
        said += &format!(", answered {}", answered.join(" "));
    }
    if let Some(chosen) = &drive.set {
        said += &format!(", set {}", set(chosen));
    }
    if drive.seen != 0 {
        said += &format!(", promise seen {}", drive.seen);
    }
    said
}

/// What is held of a number, but for its pieces and results.
pub fn record(record: &Record) -> String {
    let accepted = vote_or(record.accepted, "none");
    format!(
        "promise {}, arrived {}, accepted {accepted}, committed {}",
        record.promise,
        word_or_none(record.arrival),
        set_or_none(record.committed.as_ref())
    )
}

/// What a drive counted, server by server.
pub fn answers(drive: &Drive) -> String {
    let said = |(server, answer): (usize, &Option<Answer>)| {
        let answer = answer.as_ref()?;
        Some(format!("{server}: {}, accepted {}", word_or_none(answer.word), vote_or(answer.accepted, "nothing")))
    };
    drive.answers.iter().enumerate().filter_map(said).collect::<Vec<_>>().join("; ")
}

pub fn numbers(list: &[u32]) -> String {
    if list.is_empty() {
        return "none".to_string();
    }
    list.iter().map(|number| number.to_string()).collect::<Vec<_>>().join(" ")
}
