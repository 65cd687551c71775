//! Servers side by side.

use crate::commits;
use crate::compare::{code, judge, Compared, Difference, Outcome, OLD};
use crate::coverage::Coverage;
use crate::effects::{self, Marks};
use crate::{messages, states, values};
use chance::Chance;
use engine::ran::pieces_run;
use engine::{text, Lent};
use model::server::Record;
use model::Server;

/// Calls on a server from its beginning, and on a lent one. The last of them is a run until 0.
const LIFE: u32 = 40;
const VISIT: u32 = 5;

#[derive(Debug)]
enum Call {
    Take { message: Vec<u8>, room: usize },
    Run,
    RunAll,
    Wanted,
}

/// A server from its beginning, for as many calls as make a life.
pub fn compare_fresh<A: Lent, B: Lent>(a: &A, b: &B, chance: &mut Chance, seen: &mut Coverage) -> Compared {
    let id = if chance.percent(90) { chance.below(12) } else { values::edge(chance) };
    match (a.fresh(id), b.fresh(id)) {
        (Ok(ours), Ok(theirs)) => compare_calls(a, b, chance, seen, (ours, theirs), LIFE),
        (Err(ours), Err(theirs)) if ours == theirs => {
            seen.note("fresh", Err(ours));
            Ok(())
        }
        _ => Err(Difference(format!("one makes server {id}, or refuses it otherwise"))),
    }
}

/// A server in a state that was lent.
pub fn compare_lent<A: Lent, B: Lent>(a: &A, b: &B, chance: &mut Chance, seen: &mut Coverage) -> Compared {
    let lent = states::server(chance);
    compare_calls(a, b, chance, seen, (a.lend_server(&lent), b.lend_server(&lent)), VISIT)
}

fn compare_calls<A: Lent, B: Lent>(
    a: &A,
    b: &B,
    chance: &mut Chance,
    seen: &mut Coverage,
    (mut ours, mut theirs): (A::Server, B::Server),
    calls: u32,
) -> Compared {
    for left in (0..calls).rev() {
        let before = a.see_server(&ours);
        let call = if left == 0 { Call::RunAll } else { some_call(chance, &before) };
        let (our_outcome, _) = make(a, &mut ours, &call)?;
        let (their_outcome, marks) = make(b, &mut theirs, &call)?;
        let after = a.see_server(&ours);
        let ran = pieces_run(&before, &after);
        note(seen, &before, &call, &our_outcome);
        ran.iter().for_each(|done| seen.note_effect(effects::effect(done)));
        let states = difference(&after, &b.see_server(&theirs));
        let found = || effects::marks(&b.server_image(&theirs));
        let states = states.or_else(|| other_marks(&effects::marks_after(marks, &ran), &found()));
        judge(words(&call), &our_outcome, &their_outcome, states)?;
    }
    Ok(())
}

fn some_call(chance: &mut Chance, server: &Server) -> Call {
    match chance.below(20) {
        0 => Call::Run,
        1 => Call::RunAll,
        2 => Call::Wanted,
        _ => Call::Take { message: messages::for_server(chance, server), room: messages::room(chance) },
    }
}

/// Makes a call, which must change nothing if it is refused. Gives the marks that were lent with it.
fn make<E: Lent>(engine: &E, server: &mut E::Server, call: &Call) -> Result<(Outcome, Marks), Difference> {
    let before = engine.server_image(server);
    let mut buffer = Vec::new();
    let answer = match call {
        Call::Take { message, room } => {
            buffer = vec![OLD; *room];
            engine.take(server, message, &mut buffer).map(|length| vec![length as u64])
        }
        Call::Run => engine.run(server).map(|many| vec![u64::from(many)]),
        Call::RunAll => engine.run_all(server).map(|many| vec![u64::from(many)]),
        Call::Wanted => engine.wanted(server).map(|set| set.0.to_vec()),
    };
    let outcome = Outcome { answer, buffer };
    if outcome.refused_in_vain(outcome.answer.is_ok() || engine.server_image(server) == before) {
        return Err(Difference(format!("{}: refused, and yet something changed", words(call))));
    }
    Ok((outcome, effects::marks(&before)))
}

fn note(seen: &mut Coverage, before: &Server, call: &Call, outcome: &Outcome) {
    let answer = outcome.answer.as_ref().map(|numbers| numbers[0]).map_err(|refusal| *refusal);
    match call {
        Call::Take { message, .. } => {
            let answered = answer.map(|_| u64::from(code(&outcome.buffer)));
            seen.note(&format!("server takes {}", code(message)), answered);
            commits::note(seen, before, message, outcome)
        }
        Call::Run => seen.note("run", answer.map(|many| many.min(2))),
        Call::RunAll => seen.note("run until 0", answer.map(|many| many.min(2))),
        Call::Wanted => seen.note("wanted", answer.map(|word| word.min(1))),
    }
}

fn words(call: &Call) -> String {
    match call {
        Call::Take { message, room } => format!("take {} with room for {room}", text::bytes(message)),
        other => format!("{other:?}"),
    }
}

/// How two servers differ, up to counts and flags.
fn difference(ours: &Server, theirs: &Server) -> Option<String> {
    if ours == theirs {
        return None;
    }
    let parted = (0..64).find(|t| ours.record(*t) != theirs.record(*t));
    Some(match parted {
        Some(t) => format!("T{t} with {} and with {}", record_words(ours.record(t)), record_words(theirs.record(t))),
        None => {
            let logs = format!("log {} and {}", text::numbers(ours.log.entries()), text::numbers(theirs.log.entries()));
            let counters = |server: &Server| text::values(&server.counters.map(|counter| counter.reading()));
            format!("{logs}, counters {} and {}", counters(ours), counters(theirs))
        }
    })
}

/// A mark that is set, and by another number than it must be.
fn other_marks(wanted: &Marks, found: &Marks) -> Option<String> {
    let key = (0..wanted.len()).find(|key| wanted[*key] != found[*key])?;
    Some(format!("the mark of key {key} is {}, and must be {}", found[key], wanted[key]))
}

fn record_words(record: &Record) -> String {
    let pieces = record.pieces.as_ref().map_or("none".to_string(), text::pieces);
    let results = record.results.as_ref().map_or("none".to_string(), |values| text::values(values.entries()));
    format!("pieces {pieces}, {}, results {results}", text::record(record))
}
