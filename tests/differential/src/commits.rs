//! What came of a Commit or a Done beside its answer: how many ran, and what refused it while a number was ready.

use crate::compare::{code, Outcome};
use crate::coverage::Coverage;
use model::{codec, run, Message, Server};

/// Notes the outcome of a message, if it is one of the two, at a server as it was before.
pub fn note(seen: &mut Coverage, before: &Server, message: &[u8], outcome: &Outcome) {
    let name = match code(message) {
        2 => "Commit",
        20 => "Done",
        _ => return,
    };
    match &outcome.answer {
        Err(refusal) if has_ready(before) => seen.note(&format!("a {name} with a number ready"), Err(*refusal)),
        Err(_) => {}
        Ok(length) => {
            let answer = codec::decode(&outcome.buffer[..length[0] as usize]);
            if let (Ok(told), Ok(Message::CommitOk { ran, .. })) = (codec::decode(message), answer) {
                let repeated = before.record(told.t()).committed.is_some();
                let which = if repeated { "repeated" } else { "new" };
                seen.note(&format!("a {which} {name} runs"), Ok(u64::from(ran.min(2))));
            }
        }
    }
}

/// Whether a run would run something.
fn has_ready(server: &Server) -> bool {
    run::run(&mut server.clone()).map_or(false, |many| many > 0)
}
