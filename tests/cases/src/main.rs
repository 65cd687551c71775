//! Runs the cases of the files given, row by row, through every engine there is; then tries whether it would tell a wrong row.

use cases::judge::{judge, told, Column, Fault, Wanted};
#[cfg(feature = "archive")]
use cases::library::Library;
use cases::modelled::Modelled;
use cases::spoil;
use cases::table::{read, Entry, Row, Spoiled};
use cases::through::{called, Came, Through};
use std::process::ExitCode;

/// Lines of what came that are printed of a row.
const MOST: usize = 12;

#[derive(Default)]
struct Count {
    rows: usize,
    /// Rows that an engine can't be lent.
    left: usize,
    told: usize,
    failed: usize,
}

fn main() -> ExitCode {
    let engines = engines();
    let files: Vec<String> = std::env::args().skip(1).collect();
    let mut count = Count::default();
    for file in &files {
        match std::fs::read_to_string(file) {
            Ok(text) => read(file, &text).into_iter().for_each(|entry| run(entry, &engines, &mut count)),
            Err(error) => count.fails(&format!("{file}: {error}")),
        }
    }
    let names: Vec<&str> = engines.iter().map(|engine| engine.name()).collect();
    println!("{}", count.line(files.len(), &names.join(" and ")));
    if count.failed == 0 && count.rows > 0 {
        ExitCode::SUCCESS
    } else {
        ExitCode::FAILURE
    }
}

/// The library and the model, or the model alone where no library is linked.
#[cfg(feature = "archive")]
fn engines() -> Vec<Box<dyn Through>> {
    vec![Box::new(Library), Box::new(Modelled)]
}

#[cfg(not(feature = "archive"))]
fn engines() -> Vec<Box<dyn Through>> {
    vec![Box::new(Modelled)]
}

impl Count {
    fn line(&self, files: usize, engines: &str) -> String {
        let Count { rows, left, told, failed } = self;
        let not_lent =
            if *left == 0 { String::new() } else { format!(" ({left} have a message that the model has not)") };
        format!("{rows} rows of {files} files through {engines}{not_lent}, {told} spoiled ones told, {failed} failed")
    }

    fn fails(&mut self, what: &str) {
        println!("{what}");
        self.failed += 1;
    }
}

fn run(entry: Entry, engines: &[Box<dyn Through>], count: &mut Count) {
    let (place, text) = (&entry.place, &entry.text);
    match (&entry.row, entry.spoiled) {
        (Ok(row), None) => {
            count.rows += 1;
            engines.iter().for_each(|engine| run_row(row, &**engine, count));
        }
        (Ok(row), Some(spoiled)) => engines.iter().for_each(|engine| run_spoiled(row, text, spoiled, &**engine, count)),
        (Err(_), Some(Spoiled::Row)) => count.told += 1,
        (Err(why), _) => count.fails(&format!("{place}: {why}\n  {text}")),
    }
}

/// A right row comes out as it says, and is told when one of its columns is spoiled.
fn run_row(row: &Row, engine: &dyn Through, count: &mut Count) {
    let came = match called(engine, &row.before, &row.lent) {
        Some(came) => came,
        None => return count.left += 1,
    };
    let faults = judge(row, &Wanted::of(row), &came, engine);
    if !faults.is_empty() {
        return count.fails(&failed(row, &came, engine, &faults));
    }
    match spoil::told(row, &came, engine, count.rows) {
        Ok(many) => count.told += many,
        Err(what) => count.fails(&format!("{}, {}: not told apart with {what}", row.place, engine.name())),
    }
}

/// A row that is spoiled on purpose must be told, and in the column that was spoiled if it is of those.
fn run_spoiled(row: &Row, text: &str, spoiled: Spoiled, engine: &dyn Through, count: &mut Count) {
    let came = match called(engine, &row.before, &row.lent) {
        Some(came) => came,
        None => return count.left += 1,
    };
    let faults = judge(row, &Wanted::of(row), &came, engine);
    let only = |column| faults.iter().all(|fault| fault.column() == column);
    let right = match spoiled {
        Spoiled::Answer => only(Column::Answer),
        Spoiled::Change => only(Column::Change),
        Spoiled::Any => true,
        Spoiled::Row => false,
    };
    if faults.is_empty() || !right {
        let told = failed(row, &came, engine, &faults);
        count.fails(&format!("{told}\n  {text}\n  is spoiled, and that is not what was told"));
    } else {
        count.told += 1;
    }
}

/// A failed row: where it stands, its sentence, what it wants and what came.
fn failed(row: &Row, came: &Came, engine: &dyn Through, faults: &[Fault]) -> String {
    let mut lines = vec![format!("{}, {}", row.place, engine.name()), format!("= {}", row.sentence), row.text.clone()];
    let mut came: Vec<String> = faults.iter().flat_map(|fault| told(row, came, engine, fault)).collect();
    let more = came.len().saturating_sub(MOST);
    came.truncate(MOST);
    lines.extend(came);
    if more > 0 {
        lines.push(format!("and {more} parts more"));
    }
    lines.join("\n  ")
}
