//! The clauses of a drive, from text and to text.

use crate::parts;
use crate::server::pieces;
use crate::words::{Read, Words};
use engine::layout::{Drive, Slot};

/// What stands behind `drive`: a drive with no answers, no set and no promise seen.
pub fn begun(words: &mut Words) -> Read<Drive> {
    let t = words.t()?;
    let coordinator = words.number_after("coordinator")?;
    let ballot = words.number_after("ballot")?;
    let phase = words.number_after("phase")?;
    words.expect("pieces")?;
    Ok(Drive { t, coordinator, ballot, phase, pieces: pieces(words)?, ..Drive::default() })
}

pub fn say(drive: &mut Drive, words: &mut Words) -> Read<()> {
    match words.take()? {
        "number" => drive.t = words.number()?,
        "coordinator" => drive.coordinator = words.number()?,
        "ballot" => drive.ballot = words.number()?,
        "phase" => drive.phase = words.number()?,
        "pieces" => drive.pieces = pieces(words)?,
        "answer" => {
            let server = words.below(drive.answers.len())?;
            drive.answers[server] = answer(words)?;
        }
        "no" => {
            words.expect("answers")?;
            drive.answers = Default::default();
        }
        "set" => drive.chosen = parts::maybe_set(words)?,
        "seen" => drive.seen = words.number()?,
        _ => return Err("it is no clause of a drive".to_string()),
    }
    Ok(())
}

/// `none` is not counted; `nothing` is an answer with neither part.
fn answer(words: &mut Words) -> Read<Slot> {
    if words.eat("none") {
        return Ok(Slot::default());
    }
    let mut slot = Slot { counted: 1, ..Slot::default() };
    if words.eat("nothing") {
        return Ok(slot);
    }
    words.expect("word")?;
    slot.arrival = parts::maybe_word(words)?;
    if words.eat("accepted") {
        slot.accepted = parts::maybe_vote(words)?;
    }
    Ok(slot)
}

/// Every part of a drive as a clause, always as many and in the same order.
pub fn clauses(drive: &Drive) -> Vec<String> {
    let mut said = vec![
        format!("number {}", drive.t),
        format!("coordinator {}", drive.coordinator),
        format!("ballot {}", drive.ballot),
        format!("phase {}", drive.phase),
        format!("pieces {}", parts::show_pieces(&drive.pieces)),
    ];
    said.extend(drive.answers.iter().enumerate().map(|(server, slot)| format!("answer {server} {}", show_slot(slot))));
    said.push(format!("set {}", parts::show_maybe_set(&drive.chosen)));
    said.push(format!("seen {}", drive.seen));
    said
}

fn show_slot(slot: &Slot) -> String {
    let word = parts::show_maybe_word(&slot.arrival);
    match (slot.counted, slot.arrival.some, slot.accepted.some) {
        (0, _, _) => "none".to_string(),
        (_, 0, 0) => "nothing".to_string(),
        (_, _, 0) => format!("word {word}"),
        _ => format!("word {word} accepted {}", parts::show_maybe_vote(&slot.accepted)),
    }
}
