//! Drives side by side.

use crate::compare::{code, judge, Compared, Difference, Outcome, OLD};
use crate::coverage::Coverage;
use crate::{messages, states, values};
use chance::Chance;
use engine::{text, Lent};
use model::cluster::{origin, NUMBERS};
use model::{Drive, Pieces};

/// Calls on a lent drive.
const CALLS: u32 = 10;

#[derive(Debug)]
enum Call {
    Start { coordinator: u32, t: u32, pieces: Pieces },
    Recover { coordinator: u32, t: u32, pieces: Pieces, floor: u32 },
    Again,
    MoveOn,
    Reply { message: Vec<u8> },
    Due { room: usize },
}

/// A drive in a state that was lent.
pub fn compare_lent<A: Lent, B: Lent>(a: &A, b: &B, chance: &mut Chance, seen: &mut Coverage) -> Compared {
    let lent = states::drive(chance);
    let (mut ours, mut theirs) = (a.lend_drive(&lent), b.lend_drive(&lent));
    for _ in 0..CALLS {
        let call = some_call(chance, &a.see_drive(&ours));
        let (our_outcome, their_outcome) = (make(a, &mut ours, &call)?, make(b, &mut theirs, &call)?);
        note(seen, &call, &our_outcome);
        let (our_state, their_state) = (a.see_drive(&ours), b.see_drive(&theirs));
        let states = (our_state != their_state).then(|| format!("{} and {}", held(&our_state), held(&their_state)));
        judge(words(&call), &our_outcome, &their_outcome, states)?;
    }
    Ok(())
}

fn some_call(chance: &mut Chance, drive: &Drive) -> Call {
    let t = values::number(chance);
    let pieces = values::pieces(chance, t);
    let any = values::edge(chance);
    match chance.below(20) {
        0 => {
            let coordinator = if chance.percent(80) { origin(t % NUMBERS) } else { any };
            Call::Start { coordinator, t, pieces }
        }
        1 => {
            let coordinator = if chance.percent(90) { chance.below(8) } else { any };
            Call::Recover { coordinator, t, pieces, floor: values::edge(chance) }
        }
        2 => Call::Again,
        3 | 4 => Call::MoveOn,
        5 | 6 => Call::Due { room: messages::room(chance) },
        _ => Call::Reply { message: messages::for_drive(chance, drive) },
    }
}

/// Makes a call, which must change nothing if it is refused.
fn make<E: Lent>(engine: &E, drive: &mut E::Drive, call: &Call) -> Result<Outcome, Difference> {
    let before = engine.drive_image(drive);
    let mut buffer = Vec::new();
    let nothing = |()| Vec::new();
    let answer = match call {
        Call::Start { coordinator, t, pieces } => engine.start(drive, *coordinator, *t, pieces).map(nothing),
        Call::Recover { coordinator, t, pieces, floor } => {
            engine.recover(drive, *coordinator, *t, pieces, *floor).map(nothing)
        }
        Call::Again => engine.again(drive).map(nothing),
        Call::MoveOn => engine.move_on(drive).map(nothing),
        Call::Reply { message } => engine.reply(drive, message).map(nothing),
        Call::Due { room } => {
            buffer = vec![OLD; *room];
            engine.due(drive, &mut buffer).map(|due| vec![due.length as u64, u64::from(due.servers)])
        }
    };
    let outcome = Outcome { answer, buffer };
    if outcome.refused_in_vain(outcome.answer.is_ok() || engine.drive_image(drive) == before) {
        return Err(Difference(format!("{}: refused, and yet something changed", words(call))));
    }
    Ok(outcome)
}

fn note(seen: &mut Coverage, call: &Call, outcome: &Outcome) {
    let answer = outcome.answer.as_ref().map(|_| 0).map_err(|refusal| *refusal);
    match call {
        Call::Start { .. } => seen.note("start", answer),
        Call::Recover { .. } => seen.note("recover", answer),
        Call::Again => seen.note("again", answer),
        Call::MoveOn => seen.note("move on", answer),
        Call::Reply { message } => seen.note(&format!("drive hears {}", code(message)), answer),
        Call::Due { .. } => seen.note("due", answer.map(|_| u64::from(code(&outcome.buffer)))),
    }
}

fn words(call: &Call) -> String {
    match call {
        Call::Reply { message } => format!("reply {}", text::bytes(message)),
        other => format!("{other:?}"),
    }
}

fn held(drive: &Drive) -> String {
    let pieces = text::pieces(&drive.pieces);
    format!(
        "{} of coordinator {}, pieces {pieces}, answers [{}]",
        text::drive(drive),
        drive.coordinator,
        text::answers(drive)
    )
}
