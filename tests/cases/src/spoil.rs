//! Rows with one column spoiled in memory. The runner must tell each, so no row is empty of meaning.

use crate::answer::Answer;
use crate::call::Call;
use crate::fields;
use crate::judge::{judge, Column, Wanted};
use crate::state::{says_all, with, State};
use crate::table::Row;
use crate::through::{Came, Through};
use engine::layout::{Message, Place, Value};

/// How many spoiled columns were told, or the one that was not. `turn` makes rows differ in what is spoiled.
pub fn told(row: &Row, came: &Came, engine: &dyn Through, turn: usize) -> Result<usize, String> {
    let mut many = 1;
    let answer = Wanted { answer: other_answer(row, turn), ..Wanted::of(row) };
    tell(row, &answer, came, engine, Column::Answer).map_err(|()| format!("{:?} as its answer", answer.answer))?;
    for left_out in left_out(row, engine) {
        many += 1;
        tell(row, &left_out, came, engine, Column::Change)
            .map_err(|()| format!("{:?} as its change", left_out.change))?;
    }
    if row.after != State::None {
        many += 1;
        let (place, after) = other_state(row, engine, turn);
        let wanted = Wanted { after, ..Wanted::of(row) };
        let name = |()| format!("a change in {}", fields::names(&row.after)[place]);
        tell(row, &wanted, came, engine, Column::Change).map_err(name)?;
    }
    Ok(many)
}

/// Whether faults are found in this column and in no other.
fn tell(row: &Row, wanted: &Wanted, came: &Came, engine: &dyn Through, column: Column) -> Result<(), ()> {
    let faults = judge(row, wanted, came, engine);
    if !faults.is_empty() && faults.iter().all(|fault| fault.column() == column) {
        Ok(())
    } else {
        Err(())
    }
}

fn other_answer(row: &Row, turn: usize) -> Answer {
    match &row.answer {
        Answer::Refused(number) => Answer::Refused(number % 14 + 1),
        Answer::Ok => Answer::Refused(turn as u32 % 14 + 1),
        Answer::Nothing if matches!(row.lent.call, Call::Log(_)) => Answer::Number(0),
        Answer::Nothing => Answer::Value(Value::default()),
        Answer::Number(number) => Answer::Number(number ^ 1),
        Answer::Value(value) if turn % 2 == 0 => Answer::Value(Value { kept: 1 - value.kept, ..*value }),
        Answer::Value(value) => Answer::Value(Value { value: value.value ^ 1, ..*value }),
        Answer::Set(set) => {
            let mut set = *set;
            let words = [&mut set.w0, &mut set.w1, &mut set.w2, &mut set.w3];
            *words.into_iter().nth(turn % 4).expect("four words") ^= 1 << (turn % 64);
            Answer::Set(set)
        }
        Answer::Bytes(bytes) => Answer::Bytes(other_byte(bytes, turn)),
        Answer::Due(bytes, servers) if turn % 4 == 0 => Answer::Due(bytes.clone(), servers ^ 1 << (turn % 12)),
        Answer::Due(bytes, servers) => Answer::Due(other_byte(bytes, turn), *servers),
        Answer::Message(message) => Answer::Message(Box::new(other_message(**message, turn))),
        Answer::Odd(_) => Answer::Ok,
    }
}

/// One bit turned, or a byte more or less.
fn other_byte(bytes: &[u8], turn: usize) -> Vec<u8> {
    let mut bytes = bytes.to_vec();
    match (turn % 16, bytes.len()) {
        (0, _) | (_, 0) => bytes.push(0),
        (1, _) => drop(bytes.pop()),
        (_, length) => bytes[turn * 37 % length] ^= 1 << (turn % 8),
    }
    bytes
}

/// A field changed, whether the code has it or not.
fn other_message(mut message: Message, turn: usize) -> Message {
    let place = turn / 13 % 8;
    match turn % 13 {
        0 => message.code ^= 1,
        1 => message.t ^= 1 << 31,
        2 => message.server ^= 1,
        3 => message.ballot ^= 1 << 16,
        4 => message.promise ^= 1,
        5 => message.pieces.list[place].operand ^= 1,
        6 => message.pieces.count ^= 1,
        7 => message.set.w3 ^= 1 << 63,
        8 => message.word ^= 1 << 32,
        9 => message.arrival.some ^= 1,
        10 => message.accepted.set.w1 ^= 1,
        11 => message.ran ^= 1 << 31,
        _ => message.values.list[place].kept ^= 1,
    }
    message
}

/// The change without one of its clauses, for each: but for what an engine can't know. One that says the whole state is left as it is.
fn left_out(row: &Row, engine: &dyn Through) -> Vec<Wanted> {
    if row.change.iter().any(|clause| says_all(clause)) {
        return Vec::new();
    }
    let without = |place: usize| {
        let mut change = row.change.clone();
        change.remove(place);
        let after = with(&row.before, &change).expect("the clauses of a row were read");
        Wanted { answer: row.answer.clone(), change, after }
    };
    let unknown = |other: &State| *other != row.after && engine.known(other) == engine.known(&row.after);
    (0..row.change.len()).map(without).filter(|wanted| !unknown(&wanted.after)).collect()
}

/// The state after with one number changed that the engine knows, and that number's place.
fn other_state(row: &Row, engine: &dyn Through, turn: usize) -> (usize, State) {
    let known = engine.known(&row.after);
    let many = fields::many(&row.after);
    let places = (0..many).map(|step| (turn * 997 + step) % many);
    let mut others = places.map(|place| (place, with_other_number(&row.after, place)));
    others.find(|(_, after)| engine.known(after) != known).expect("an engine knows some number")
}

fn with_other_number(state: &State, place: usize) -> State {
    let mut state = state.clone();
    fields::visit(&mut state, &mut |at, field| {
        if at == place {
            match field {
                Place::Number(number) => *number ^= 1,
                Place::Signed(number) => *number ^= 1,
                Place::Word(word) => *word ^= 1 << 63,
            }
        }
    });
    state
}
