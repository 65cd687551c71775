//! The proved library through `drobulets::raw`, so that every number of an answer is seen.

use crate::answer::Answer;
use crate::call::{Call, Lent};
use crate::state::State;
use crate::through::{came, Came, Output, Through};
use drobulets::{layout, raw};

pub struct Library;

impl Through for Library {
    fn name(&self) -> &'static str {
        "the library"
    }

    fn call(&self, state: &State, lent: &Lent) -> Option<Came> {
        let mut output = Output::of(lent.output);
        let mut after = state.clone();
        let answer = match &mut after {
            State::None => alone(&lent.call, &mut output),
            State::Server(server) => at_server(server, &lent.call, &mut output),
            State::Drive(drive) => at_drive(drive, &lent.call, &mut output),
        }?;
        Some(came(answer, after, &output))
    }

    fn known(&self, state: &State) -> State {
        state.clone()
    }
}

/// What is told where nothing is refused, and a refusal with 0 in all its other numbers; a struct `T` has the number and the rest.
fn judged<T: PartialEq + std::fmt::Debug>(number: u32, said: T, bare: T, told: impl Fn() -> Answer) -> Answer {
    match number {
        0 => told(),
        _ if said == bare => Answer::Refused(number),
        _ => Answer::Odd(format!("refused {number}, with {said:?}")),
    }
}

fn ok(number: u32) -> Answer {
    match number {
        0 => Answer::Ok,
        _ => Answer::Refused(number),
    }
}

fn written(said: layout::Answer, output: &Output) -> Answer {
    let bare = layout::Answer { refusal: said.refusal, length: 0 };
    judged(said.refusal, said, bare, || bytes(said.length, output))
}

fn bytes(length: u32, output: &Output) -> Answer {
    let written = output.written(length as usize);
    written.map_or(Answer::Odd(format!("a length of {length}, more than was lent")), Answer::Bytes)
}

fn counted(said: layout::Counted) -> Answer {
    let bare = layout::Counted { refusal: said.refusal, many: 0 };
    judged(said.refusal, said, bare, || Answer::Number(said.many))
}

/// A value, or nothing with 0 in every number.
fn reading(said: layout::Reading) -> Answer {
    match said.some {
        0 if said == layout::Reading::default() => Answer::Nothing,
        0 => Answer::Odd(format!("none, with {said:?}")),
        _ => Answer::Value(layout::Value { value: said.value, kept: (said.kept != 0).into() }),
    }
}

/// A counter's mark is shown as 0 or 1, whatever number it is in memory.
fn counter(said: layout::Reading) -> Answer {
    match said.kept {
        0 | 1 => reading(said),
        _ => Answer::Odd(format!("a mark that is neither 0 nor 1: {said:?}")),
    }
}

fn entry(said: layout::LogEntry) -> Answer {
    match said.some {
        0 if said == layout::LogEntry::default() => Answer::Nothing,
        0 => Answer::Odd(format!("none, with {said:?}")),
        _ => Answer::Number(said.number),
    }
}

fn at_server(server: &mut layout::Server, call: &Call, output: &mut Output) -> Option<Answer> {
    Some(match call {
        Call::Fresh(id) => ok(raw::server_fresh(server, *id)),
        Call::Take(given) => {
            let said = raw::server_take(server, given, output.lend());
            written(said, output)
        }
        Call::Run => counted(raw::server_run(server)),
        Call::RunAll => counted(raw::server_run_all(server)),
        Call::Wanted => {
            let said = raw::server_wanted(server);
            let bare = layout::Wants { refusal: said.refusal, ..Default::default() };
            judged(said.refusal, said, bare, || Answer::Set(said.set))
        }
        Call::Counter(key) => counter(raw::server_counter(server, *key)),
        Call::Log(place) => entry(raw::server_log(server, *place)),
        Call::Result(t, place) => reading(raw::server_result(server, *t, *place)),
        _ => return None,
    })
}

fn at_drive(drive: &mut layout::Drive, call: &Call, output: &mut Output) -> Option<Answer> {
    Some(match call {
        Call::Start { t, coordinator, pieces } => ok(raw::drive_start(drive, *coordinator, *t, *pieces)),
        Call::Recover { t, coordinator, floor, pieces } => {
            ok(raw::drive_recover(drive, *coordinator, *t, *pieces, *floor))
        }
        Call::Again => ok(raw::drive_again(drive)),
        Call::MoveOn => ok(raw::drive_move_on(drive)),
        Call::Reply(given) => ok(raw::drive_take(drive, given)),
        Call::Due => {
            let said = raw::drive_due(drive, output.lend());
            let bare = layout::Due { refusal: said.refusal, ..Default::default() };
            judged(said.refusal, said, bare, || match bytes(said.length, output) {
                Answer::Bytes(bytes) => Answer::Due(bytes, said.servers),
                odd => odd,
            })
        }
        _ => return None,
    })
}

fn alone(call: &Call, output: &mut Output) -> Option<Answer> {
    Some(match call {
        Call::Next { above, coordinator } => {
            let said = raw::next_ballot(*coordinator, *above);
            let bare = layout::Ballot { refusal: said.refusal, ballot: 0 };
            judged(said.refusal, said, bare, || Answer::Number(said.ballot))
        }
        Call::Decode(given) => {
            let said = raw::decode(given);
            let bare = layout::Decoded { refusal: said.refusal, ..Default::default() };
            judged(said.refusal, said, bare, || Answer::Message(Box::new(said.message)))
        }
        Call::Encode(message) => {
            let said = raw::encode(message, output.lend());
            written(said, output)
        }
        _ => return None,
    })
}
