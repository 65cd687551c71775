//! A lent state and its clauses.

use crate::words::{Read, Words};
use crate::{drive, fields, server};
use engine::layout;
use std::collections::HashMap;

/// What is lent. `None` is for the calls that take no state.
#[derive(Clone, Debug, PartialEq, Eq)]
pub enum State {
    None,
    Server(Box<layout::Server>),
    Drive(Box<layout::Drive>),
}

/// The clauses of a list in which names stand for theirs.
pub fn clauses(list: &str, names: &HashMap<String, Vec<String>>) -> Read<Vec<String>> {
    let mut all = Vec::new();
    for clause in list.split(';').map(str::trim) {
        match names.get(clause) {
            Some(named) => all.extend(named.iter().cloned()),
            None if clause.is_empty() => return Err(format!("there is an empty clause in `{list}`")),
            None => all.push(clause.to_string()),
        }
    }
    Ok(all)
}

/// The state with these clauses, read from the left.
pub fn with(state: &State, clauses: &[String]) -> Read<State> {
    let mut state = state.clone();
    clauses.iter().try_for_each(|clause| say(&mut state, clause).map_err(|why| format!("in `{clause}`: {why}")))?;
    Ok(state)
}

/// Whether a clause says a whole state and not a part of one.
pub fn says_all(clause: &str) -> bool {
    matches!(Words::of(clause).peek(), "server" | "drive" | "blank")
}

fn say(state: &mut State, clause: &str) -> Read<()> {
    let mut words = Words::of(clause);
    if words.eat("server") {
        *state = State::Server(Box::new(layout::Server { id: words.number()?, ..layout::Server::default() }));
    } else if words.eat("blank") {
        *state = State::Drive(Box::default());
    } else if words.eat("drive") {
        *state = State::Drive(Box::new(drive::begun(&mut words)?));
    } else if words.eat("raw") {
        fields::store(state, &mut words)?;
    } else {
        match state {
            State::None => return Err("a state begins with `server N`, `drive T8 ..` or `blank`".to_string()),
            State::Server(server) => server::say(server, &mut words)?,
            State::Drive(drive) => drive::say(drive, &mut words)?,
        }
    }
    words.end()
}

/// Where two states differ, in clauses: `T8 promise 8, not T8 promise 0`. What no clause says is told by its field.
pub fn differences(came: &State, wanted: &State) -> Vec<String> {
    let said = |state: &State| match state {
        State::None => Vec::new(),
        State::Server(server) => server::clauses(server),
        State::Drive(drive) => drive::clauses(drive),
    };
    let by_clause = apart(said(came), said(wanted));
    if by_clause.is_empty() {
        return apart(fields::all(came), fields::all(wanted));
    }
    by_clause
}

fn apart(came: Vec<String>, wanted: Vec<String>) -> Vec<String> {
    let pairs = came.into_iter().zip(wanted).filter(|(came, wanted)| came != wanted);
    pairs.map(|(came, wanted)| format!("{came}, not {wanted}")).collect()
}
