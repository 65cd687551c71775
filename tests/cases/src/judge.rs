//! What a row wants against what came.

use crate::answer::{show, Answer};
use crate::state::{differences, says_all, with, State};
use crate::table::Row;
use crate::through::{Came, Through};

/// The column of a row that is not kept.
#[derive(Clone, Copy, Debug, PartialEq, Eq)]
pub enum Column {
    Answer,
    Change,
}

#[derive(Clone, Debug, PartialEq, Eq)]
pub enum Fault {
    Answer,
    /// A byte of the output was touched that is no part of the answer.
    Touched(usize),
    State,
    /// A clause of the change says what was so before.
    Idle(String),
}

impl Fault {
    pub fn column(&self) -> Column {
        match self {
            Fault::Answer | Fault::Touched(_) => Column::Answer,
            Fault::State | Fault::Idle(_) => Column::Change,
        }
    }
}

/// What a row wants. It is the row's own, or a spoiled copy.
#[derive(Clone)]
pub struct Wanted {
    pub answer: Answer,
    pub change: Vec<String>,
    pub after: State,
}

impl Wanted {
    pub fn of(row: &Row) -> Wanted {
        Wanted { answer: row.answer.clone(), change: row.change.clone(), after: row.after.clone() }
    }
}

pub fn judge(row: &Row, wanted: &Wanted, came: &Came, engine: &dyn Through) -> Vec<Fault> {
    let mut faults = Vec::new();
    if came.answer != wanted.answer {
        faults.push(Fault::Answer);
    }
    faults.extend(came.touched.map(Fault::Touched));
    if came.after != engine.known(&wanted.after) {
        faults.push(Fault::State);
    }
    faults.extend(idle(&row.before, &wanted.change).into_iter().map(Fault::Idle));
    faults
}

/// What came, in the words of the format: a line for the answer, and one for each part of the state that is not as wanted.
pub fn told(row: &Row, came: &Came, engine: &dyn Through, fault: &Fault) -> Vec<String> {
    match fault {
        Fault::Answer => vec![format!("answer that came: {}", shown(row, came))],
        Fault::Touched(place) => {
            vec![format!("byte {place} of the output was touched, which is no part of the answer")]
        }
        Fault::State => {
            let parts = differences(&came.after, &engine.known(&row.after)).into_iter();
            parts.map(|part| format!("change that came: {part}")).collect()
        }
        Fault::Idle(clause) => vec![format!("no change: {clause} is as it was lent")],
    }
}

/// Two answers that read alike are shown with all their numbers.
fn shown(row: &Row, came: &Came) -> String {
    let what = show(&row.lent.call, &came.answer);
    if what == show(&row.lent.call, &row.answer) {
        return format!("{:?}", came.answer);
    }
    what
}

/// The clauses of a change that say what was so before. A change that says a whole state has none.
fn idle(before: &State, change: &[String]) -> Vec<String> {
    if change.iter().any(|clause| says_all(clause)) {
        return Vec::new();
    }
    let same = |clause: &&String| with(before, &[clause.to_string()]).map_or(false, |after| after == *before);
    change.iter().filter(same).cloned().collect()
}
