//! A file of cases, row by row.

use crate::answer::{answer, Answer};
use crate::call::{call, Lent};
use crate::state::{clauses, says_all, with, State};
use crate::words::Read;
use std::collections::HashMap;

/// A row: what is lent, what is called, and what must come of it.
pub struct Row {
    /// `cases/bytes.txt:12`.
    pub place: String,
    pub sentence: String,
    /// As it is written.
    pub text: String,
    pub before: State,
    pub lent: Lent,
    pub answer: Answer,
    /// The clauses of CHANGE.
    pub change: Vec<String>,
    pub after: State,
}

/// What the runner must tell of a row that is spoiled on purpose.
#[derive(Clone, Copy, Debug, PartialEq, Eq)]
pub enum Spoiled {
    Answer,
    Change,
    /// The state or the call is spoiled, so any column may tell.
    Any,
    /// It can't be read.
    Row,
}

/// A row or why it can't be read, and whether it is spoiled on purpose.
pub struct Entry {
    pub place: String,
    pub text: String,
    pub row: Read<Row>,
    pub spoiled: Option<Spoiled>,
}

const MARKS: [(&str, Spoiled); 5] = [
    ("!answer ", Spoiled::Answer),
    ("!change ", Spoiled::Change),
    ("!state ", Spoiled::Any),
    ("!call ", Spoiled::Any),
    ("!row ", Spoiled::Row),
];

#[derive(Default)]
struct Reader {
    names: HashMap<String, Vec<String>>,
    sentence: Option<String>,
    /// The state after the row above.
    above: Option<State>,
}

/// Every row of a file, and every line of it that is wrong.
pub fn read(file: &str, text: &str) -> Vec<Entry> {
    let mut reader = Reader::default();
    let mut entries = Vec::new();
    for (number, line) in lines(text) {
        let place = format!("{file}:{number}");
        if let Some(entry) = reader.line(place, line) {
            entries.push(entry);
        }
    }
    if entries.is_empty() {
        let why = Err("there is no row in this file".to_string());
        entries.push(Entry { place: file.to_string(), text: String::new(), row: why, spoiled: None });
    }
    entries
}

/// The lines with their numbers. One that ends with `\` goes on in the next, and has the number of its first; a comment never does.
fn lines(text: &str) -> Vec<(usize, String)> {
    let mut lines: Vec<(usize, String)> = Vec::new();
    let mut goes_on = false;
    for (place, line) in text.lines().map(str::trim).enumerate() {
        let more = line.strip_suffix('\\').filter(|_| goes_on || !line.starts_with('#'));
        let part = more.unwrap_or(line).trim();
        match lines.last_mut() {
            Some((_, begun)) if goes_on => *begun = format!("{begun} {part}"),
            _ => lines.push((place + 1, part.to_string())),
        }
        goes_on = more.is_some();
    }
    lines
}

impl Reader {
    /// What a line is, if it is a row or wrong.
    fn line(&mut self, place: String, line: String) -> Option<Entry> {
        if line.is_empty() || line.starts_with('#') {
            return None;
        }
        if let Some(sentence) = line.strip_prefix("= ") {
            self.sentence = Some(sentence.to_string());
            return None;
        }
        if let Some((name, list)) = line.split_once(":=") {
            let wrong = self.name(name.trim(), list).err()?;
            return Some(Entry { place, text: line, row: Err(wrong), spoiled: None });
        }
        let mark = MARKS.iter().find(|mark| line.starts_with(mark.0));
        let (spoiled, text) = mark.map_or((None, &line[..]), |mark| (Some(mark.1), &line[mark.0.len()..]));
        let row = self.row(place.clone(), text);
        if spoiled.is_none() {
            self.above = row.as_ref().ok().map(|row| row.after.clone());
        }
        Some(Entry { place, text: line, row, spoiled })
    }

    /// Gives a state a name.
    fn name(&mut self, name: &str, list: &str) -> Read<()> {
        let good = name.bytes().all(|letter| letter.is_ascii_alphanumeric() || letter == b'-');
        if name.is_empty() || !good || says_all(name) || name == "nothing" {
            return Err(format!("`{name}` can't be a name"));
        }
        let clauses = clauses(list, &self.names)?;
        with(&State::None, &clauses)?;
        match self.names.insert(name.to_string(), clauses) {
            None => Ok(()),
            Some(_) => Err(format!("there is a `{name}` above")),
        }
    }

    fn row(&self, place: String, text: &str) -> Read<Row> {
        let sentence = self.sentence.clone().ok_or("a row has a sentence above it, `= ..`")?;
        let columns: Vec<&str> = text.split('|').map(str::trim).collect();
        let (state, called, told, changed) = match columns[..] {
            [state, called, told, changed] => (state, called, told, changed),
            _ => return Err(format!("a row has four columns, and here are {}", columns.len())),
        };
        let before = self.state(state)?;
        let lent = call(called)?;
        lent.call.is_lent(&before)?;
        let answer = answer(&lent.call, told)?;
        let change = if changed == "nothing" { Vec::new() } else { clauses(changed, &self.names)? };
        let after = with(&before, &change)?;
        if std::mem::discriminant(&before) != std::mem::discriminant(&after) {
            return Err("a call leaves what it was lent: a server, a drive or no state".to_string());
        }
        Ok(Row { place, sentence, text: text.trim().to_string(), before, lent, answer, change, after })
    }

    fn state(&self, text: &str) -> Read<State> {
        match text {
            "-" => Ok(State::None),
            "" => self.above.clone().ok_or_else(|| "no row above leaves a state".to_string()),
            list => with(&State::None, &clauses(list, &self.names)?),
        }
    }
}
