//! The model. It has no readers and no numbers beside a refusal; its state is read here.

use crate::answer::Answer;
use crate::call::{Call, Lent};
use crate::state::State;
use crate::through::{came, Came, Output, Through};
use engine::{image, messages, Engine, Plain};
use model::{ballots, codec, Drive, Refusal, Server};

pub struct Modelled;

impl Through for Modelled {
    fn name(&self) -> &'static str {
        "the model"
    }

    fn call(&self, state: &State, lent: &Lent) -> Option<Came> {
        let mut output = Output::of(lent.output);
        let (answer, after) = match state {
            State::None => (alone(&lent.call, &mut output)?, State::None),
            State::Server(server) => {
                let mut server = image::server(server);
                let answer = at_server(&mut server, &lent.call, &mut output)?;
                (answer, State::Server(Box::new(image::server_image(&server))))
            }
            State::Drive(drive) => {
                let mut drive = image::drive(drive);
                let answer = at_drive(&mut drive, &lent.call, &mut output)?;
                (answer, State::Drive(Box::new(image::drive_image(&drive))))
            }
        };
        Some(came(answer, after, &output))
    }

    fn known(&self, state: &State) -> State {
        match state {
            State::None => State::None,
            State::Server(server) => State::Server(Box::new(image::server_image(&image::server(server)))),
            State::Drive(drive) => State::Drive(Box::new(image::drive_image(&image::drive(drive)))),
        }
    }
}

fn told<T>(outcome: Result<T, Refusal>, answer: impl FnOnce(T) -> Answer) -> Answer {
    outcome.map_or_else(|refusal| Answer::Refused(refusal.number()), answer)
}

fn written(outcome: Result<usize, Refusal>, output: &Output) -> Answer {
    told(outcome, |length| output.written(length).map_or(Answer::Odd(format!("length {length}")), Answer::Bytes))
}

fn at_server(server: &mut Server, call: &Call, output: &mut Output) -> Option<Answer> {
    Some(match call {
        Call::Fresh(id) => told(Plain.fresh(*id), |fresh| {
            *server = fresh;
            Answer::Ok
        }),
        Call::Take(bytes) => {
            let outcome = Plain.take(server, bytes, output.lend());
            written(outcome, output)
        }
        Call::Run => told(Plain.run(server), Answer::Number),
        Call::RunAll => told(Plain.run_all(server), Answer::Number),
        Call::Wanted => told(Plain.wanted(server), |set| Answer::Set(image::set_image(&set))),
        Call::Counter(key) => {
            let counter = server.counters.get(*key as usize);
            counter.map_or(Answer::Nothing, |counter| Answer::Value(image::value_image(&counter.reading())))
        }
        Call::Log(place) => server.log.entries().get(*place as usize).map_or(Answer::Nothing, |t| Answer::Number(*t)),
        Call::Result(t, place) => {
            let record = server.records.get(*t as usize);
            let results = record.and_then(|record| record.results.as_ref());
            let result = results.and_then(|results| results.entries().get(*place as usize));
            result.map_or(Answer::Nothing, |result| Answer::Value(image::value_image(result)))
        }
        _ => return None,
    })
}

fn at_drive(drive: &mut Drive, call: &Call, output: &mut Output) -> Option<Answer> {
    let ok = |outcome| told(outcome, |()| Answer::Ok);
    Some(match call {
        Call::Start { t, coordinator, pieces } => ok(Plain.start(drive, *coordinator, *t, &image::pieces(pieces))),
        Call::Recover { t, coordinator, floor, pieces } => {
            ok(Plain.recover(drive, *coordinator, *t, &image::pieces(pieces), *floor))
        }
        Call::Again => ok(Plain.again(drive)),
        Call::MoveOn => ok(Plain.move_on(drive)),
        Call::Reply(bytes) => ok(Plain.reply(drive, bytes)),
        Call::Due => match Plain.due(drive, output.lend()) {
            Err(refusal) => Answer::Refused(refusal.number()),
            Ok(due) => match written(Ok(due.length), output) {
                Answer::Bytes(bytes) => Answer::Due(bytes, due.servers),
                odd => odd,
            },
        },
        _ => return None,
    })
}

fn alone(call: &Call, output: &mut Output) -> Option<Answer> {
    Some(match call {
        Call::Next { above, coordinator } => told(ballots::next(*coordinator, *above), Answer::Number),
        Call::Decode(bytes) => {
            told(codec::decode(bytes), |message| Answer::Message(Box::new(messages::message_image(&message))))
        }
        Call::Encode(message) => {
            let outcome = codec::encode(&messages::message(message)?, output.lend());
            written(outcome, output)
        }
        _ => return None,
    })
}
