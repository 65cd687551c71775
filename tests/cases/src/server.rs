//! The clauses of a server, from text and to text.

use crate::parts;
use crate::words::{number, signed, Read, Words};
use engine::layout::{Counter, Log, Pieces, Record, Server, Values};
use std::ops::RangeInclusive;

pub fn say(server: &mut Server, words: &mut Words) -> Read<()> {
    if words.eat("counter") {
        let key = words.below(server.counters.list.len())?;
        words.expect("=")?;
        server.counters.list[key] = Counter { value: signed(words.take()?)?, full: words.eat("full").into() };
    } else if words.eat("log") {
        server.log = log(words)?;
    } else if let Some(text) = words.peek().strip_prefix('T') {
        words.take()?;
        let numbers = range(text)?;
        let held = server.records.get_mut(numbers).ok_or(format!("a server holds nothing of T{text}"))?;
        let part = words.rest();
        for record in held {
            let mut words = Words::of(part);
            say_held(record, &mut words)?;
            words.end()?;
        }
    } else {
        return Err("it is no clause of a server".to_string());
    }
    Ok(())
}

/// The numbers run, 0 behind them.
fn log(words: &mut Words) -> Read<Log> {
    let mut log = Log::default();
    let text = words.rest();
    if text == "none" {
        return Ok(log);
    }
    for word in text.split_whitespace() {
        for t in range(word)? {
            let place = log.list.get_mut(log.count as usize).ok_or("a log has places for 64 numbers")?;
            *place = t as u32;
            log.count += 1;
        }
    }
    if log.count == 0 {
        return Err("numbers are wanted, or `none`".to_string());
    }
    Ok(log)
}

/// `8`, or `0..7` for those from 0 to 7.
fn range(text: &str) -> Read<RangeInclusive<usize>> {
    let (first, last) = text.split_once("..").unwrap_or((text, text));
    let (first, last) = (number(first)? as usize, number(last)? as usize);
    if first > last {
        return Err(format!("there is nothing in `{text}`"));
    }
    Ok(first..=last)
}

fn say_held(record: &mut Record, words: &mut Words) -> Read<()> {
    match words.take()? {
        "pieces" => record.pieces = pieces(words)?,
        "promise" => record.promise = words.number()?,
        "arrived" => record.arrival = parts::maybe_word(words)?,
        "accepted" => record.accepted = parts::maybe_vote(words)?,
        "committed" => record.committed = parts::maybe_set(words)?,
        "results" => (record.ran, record.values) = results(words)?,
        part => return Err(format!("a number has no `{part}`")),
    }
    Ok(())
}

/// Pieces as a state holds them: `none` is a count of 0.
pub fn pieces(words: &mut Words) -> Read<Pieces> {
    if words.eat("none") {
        return Ok(Pieces::default());
    }
    parts::pieces(words)
}

/// Whether it ran, and the results: `none` has not run, `nothing` ran with none.
fn results(words: &mut Words) -> Read<(u32, Values)> {
    if words.eat("none") {
        return Ok((0, Values::default()));
    }
    if words.eat("nothing") {
        return Ok((1, Values::default()));
    }
    Ok((1, parts::values(words)?))
}

/// Every part of a server as a clause, always as many and in the same order.
pub fn clauses(server: &Server) -> Vec<String> {
    let mut said = vec![format!("server {}", server.id)];
    for (t, record) in server.records.iter().enumerate() {
        let ran = parts::show_values(&record.values, "nothing");
        said.push(format!("T{t} pieces {}", parts::show_pieces(&record.pieces)));
        said.push(format!("T{t} promise {}", record.promise));
        said.push(format!("T{t} arrived {}", parts::show_maybe_word(&record.arrival)));
        said.push(format!("T{t} accepted {}", parts::show_maybe_vote(&record.accepted)));
        said.push(format!("T{t} committed {}", parts::show_maybe_set(&record.committed)));
        said.push(format!("T{t} results {}", if record.ran == 0 { "none" } else { &ran }));
    }
    let counters = server.counters.list.iter().enumerate();
    said.extend(counters.map(|(key, counter)| format!("counter {key} = {}", show_counter(counter))));
    said.push(show_log(&server.log));
    said
}

fn show_counter(counter: &Counter) -> String {
    format!("{}{}", counter.value, if counter.full == 0 { "" } else { " full" })
}

fn show_log(log: &Log) -> String {
    let numbers = log.list.iter().take(log.count as usize).map(|t| t.to_string());
    match log.count {
        0 => "log none".to_string(),
        1..=64 => format!("log {}", numbers.collect::<Vec<_>>().join(" ")),
        count => format!("raw log.count = {count}"),
    }
}
