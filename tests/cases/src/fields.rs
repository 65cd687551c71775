//! Every number of a state or a message by its name in `include/drobulets.h`: `records[8].pieces.count`.

use crate::parts;
use crate::state::State;
use crate::words::{number, signed, word_of_bits, Read, Words};
use engine::layout::{Message, Numbers, Place, Visit};

/// What stands behind `raw`: stores a number in the field of a name.
pub fn store(state: &mut State, words: &mut Words) -> Read<()> {
    let names = names(state);
    store_at(&names, words, |put| visit(state, &mut |_, field| put(field)))
}

pub fn store_in_message(to: &mut Message, words: &mut Words) -> Read<()> {
    store_at(&message(), words, |put| visit_message(to, put))
}

fn store_at(names: &[String], words: &mut Words, visit: impl FnOnce(Visit)) -> Read<()> {
    let name = words.take()?;
    words.expect("=")?;
    let value = words.rest();
    let place = names.iter().position(|known| known == name).ok_or(format!("there is no field `{name}`"))?;
    let (mut at, mut stored) = (0, Ok(()));
    visit(&mut |field| {
        if at == place {
            stored = put(field, value);
        }
        at += 1;
    });
    stored
}

/// A word may be said by the numbers in it.
fn put(field: Place, value: &str) -> Read<()> {
    match field {
        Place::Number(place) => *place = number(value)?,
        Place::Signed(place) => *place = signed(value)?,
        Place::Word(place) if value.starts_with('{') => *place = parts::word(&mut Words::of(value))?,
        Place::Word(place) => *place = word_of_bits(value)?,
    }
    Ok(())
}

/// Every field as a clause: `raw records[8].promise = 0`.
pub fn all(state: &State) -> Vec<String> {
    let mut names = names(state).into_iter();
    let mut all = Vec::new();
    visit(&mut state.clone(), &mut |_, field| {
        let value = match field {
            Place::Number(number) => number.to_string(),
            Place::Signed(number) => number.to_string(),
            Place::Word(word) => parts::show_word(*word),
        };
        all.push(format!("raw {} = {value}", names.next().unwrap_or_default()));
    });
    all
}

/// Visits every number with its place, counted from 0.
pub fn visit(state: &mut State, visit: &mut dyn FnMut(usize, Place)) {
    let mut at = 0;
    let counting = &mut |field: Place| {
        visit(at, field);
        at += 1;
    };
    match state {
        State::None => {}
        State::Server(server) => server.visit(counting),
        State::Drive(drive) => drive.visit(counting),
    }
}

/// How many numbers there are.
pub fn many(state: &State) -> usize {
    let mut many = 0;
    visit(&mut state.clone(), &mut |_, _| many += 1);
    many
}

/// The names in the order in which the numbers are visited.
pub fn names(state: &State) -> Vec<String> {
    match state {
        State::None => Vec::new(),
        State::Server(_) => server(),
        State::Drive(_) => drive(),
    }
}

fn server() -> Vec<String> {
    let mut names = under("", &["id"]);
    names.extend((0..64).flat_map(|t| record(&format!("records[{t}]."))));
    names.extend((0..16).flat_map(|key| under(&format!("counters.list[{key}]."), &["value", "full"])));
    names.extend((0..64).map(|place| format!("log.list[{place}]")));
    names.extend(under("log.", &["count"]));
    names
}

fn drive() -> Vec<String> {
    let mut names = under("", &["t", "coordinator", "ballot", "phase"]);
    names.extend(pieces("pieces."));
    names.extend((0..12).flat_map(|server| slot(&format!("answers[{server}]."))));
    names.extend(under("chosen.", &SOME_SET));
    names.extend(under("", &["seen"]));
    names
}

/// A message's numbers, in the order of the struct.
fn visit_message(message: &mut Message, visit: Visit) {
    let Message { code, t, server, ballot, promise, .. } = message;
    for field in [code, t, server, ballot, promise] {
        visit(Place::Number(field));
    }
    message.pieces.visit(visit);
    message.set.visit(visit);
    visit(Place::Word(&mut message.word));
    message.arrival.visit(visit);
    message.accepted.visit(visit);
    message.values.visit(visit);
    visit(Place::Number(&mut message.ran));
}

fn message() -> Vec<String> {
    let mut names = under("", &["code", "t", "server", "ballot", "promise"]);
    names.extend(pieces("pieces."));
    names.extend(under("", &["set.w0", "set.w1", "set.w2", "set.w3", "word"]));
    names.extend(under("", &WORD_AND_VOTE));
    names.extend(values(""));
    names.extend(under("", &["ran"]));
    names
}

fn record(at: &str) -> Vec<String> {
    let mut names = pieces(&format!("{at}pieces."));
    names.extend(under(at, &["promise"]));
    names.extend(under(at, &WORD_AND_VOTE));
    names.extend(under(&format!("{at}committed."), &SOME_SET));
    names.extend(under(at, &["ran"]));
    names.extend(values(at));
    names
}

fn values(at: &str) -> Vec<String> {
    let one = |place| under(&format!("{at}values.list[{place}]."), &["value", "kept"]);
    let mut names: Vec<String> = (0..8).flat_map(one).collect();
    names.extend(under(at, &["values.count"]));
    names
}

fn slot(at: &str) -> Vec<String> {
    let mut names = under(at, &["counted"]);
    names.extend(under(at, &WORD_AND_VOTE));
    names
}

fn pieces(at: &str) -> Vec<String> {
    let one = |place| under(&format!("{at}list[{place}]."), &["shard", "key", "kind", "operand"]);
    let mut names: Vec<String> = (0..8).flat_map(one).collect();
    names.extend(under(at, &["count"]));
    names
}

const SOME_SET: [&str; 5] = ["some", "set.w0", "set.w1", "set.w2", "set.w3"];

/// What arrived and what is accepted.
const WORD_AND_VOTE: [&str; 8] = [
    "arrival.some",
    "arrival.word",
    "accepted.some",
    "accepted.ballot",
    "accepted.set.w0",
    "accepted.set.w1",
    "accepted.set.w2",
    "accepted.set.w3",
];

fn under(at: &str, names: &[&str]) -> Vec<String> {
    names.iter().map(|name| format!("{at}{name}")).collect()
}
