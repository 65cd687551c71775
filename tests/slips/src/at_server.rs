//! Slips in what a server does.

use crate::at_counter::run_again;
use crate::Slip;
use engine::ran::take_back;
use model::cluster::{numbers_in, only};
use model::run::{execute, Waits};
use model::server::step as true_step;
use model::{Message, Refusal, Server};

/// The step with a slip. What the true step refuses, this one refuses too.
pub fn step(slip: Slip, server: &mut Server, message: &Message) -> Result<Message, Refusal> {
    if let Slip::ArrivalWordChanges | Slip::PromiseIgnored = slip {
        true_step(&mut server.clone(), message)?;
    }
    match (slip, message) {
        (Slip::PreAcceptForgetsAccepted, Message::PreAccept { t, .. }) => {
            let answer = true_step(server, message)?;
            if let Message::PreAcceptOk { .. } = answer {
                server.record_mut(*t).accepted = None;
            }
            Ok(answer)
        }
        (Slip::ArrivalWordChanges, Message::PreAccept { t, .. }) => {
            let held = server.record(*t).arrival;
            server.record_mut(*t).arrival = None;
            let answer = true_step(server, message)?;
            if server.record(*t).arrival.is_none() {
                server.record_mut(*t).arrival = held;
            }
            Ok(answer)
        }
        (
            Slip::PromiseIgnored,
            Message::PreAccept { t, .. } | Message::Accept { t, .. } | Message::Prepare { t, .. },
        ) => {
            let held = server.record(*t).promise;
            server.record_mut(*t).promise = 0;
            let answer = true_step(server, message)?;
            let promise = &mut server.record_mut(*t).promise;
            *promise = held.max(*promise);
            Ok(answer)
        }
        (Slip::AlwaysBehind, Message::PreAccept { t, ballot, .. })
        | (Slip::AlwaysBehind, Message::Accept { t, ballot, .. })
        | (Slip::AlwaysBehind, Message::Prepare { t, ballot, .. }) => {
            true_step(&mut server.clone(), message)?;
            Ok(Message::Behind { t: *t, server: server.id, asked: *ballot, promise: *ballot })
        }
        (Slip::AlwaysEmpty, Message::PreAccept { t, ballot, .. }) => {
            let answer = true_step(server, message)?;
            if !matches!(answer, Message::PreAcceptOk { .. }) {
                return Ok(answer);
            }
            server.record_mut(*t).arrival = Some(0);
            Ok(Message::PreAcceptOk { t: *t, server: server.id, ballot: *ballot, word: 0 })
        }
        (Slip::BehindBeforeDone, _) => {
            let answer = true_step(server, message)?;
            let promise = server.record(message.t()).promise;
            Ok(match message.ballot() {
                Some(asked) if promise > asked => Message::Behind { t: message.t(), server: server.id, asked, promise },
                _ => answer,
            })
        }
        (Slip::StoresNothing, _) => true_step(&mut server.clone(), message),
        (_, Message::Commit { .. } | Message::Done { .. }) => commit(slip, server, message),
        _ => true_step(server, message),
    }
}

/// A Commit or a Done: held as the true step holds it, and then the runs with a slip.
fn commit(slip: Slip, server: &mut Server, message: &Message) -> Result<Message, Refusal> {
    let before = server.clone();
    if let Err(refusal) = true_step(server, message) {
        if slip == Slip::RefusedCommitRuns && refusal == Refusal::OtherSet {
            run_all(slip, server)?;
        }
        return Err(refusal);
    }
    take_back(server, &before);
    let t = message.t();
    let ran = match (slip, message) {
        (Slip::DoneDoesNotRun, Message::Done { .. }) => 0,
        (Slip::RepeatDoesNotRun, _) if before.record(t).committed.is_some() => 0,
        (Slip::CommitRunsOneGroup, _) => run(slip, server)?,
        (Slip::LastRunCounted, _) => run_to_the_last(slip, server)?,
        _ => run_all(slip, server)?,
    };
    Ok(match slip {
        Slip::CountBeforeServer => Message::CommitOk { t, server: ran, ran: server.id },
        _ => Message::CommitOk { t, server: server.id, ran },
    })
}

/// Runs until 0, and answers how many the last run that ran anything had.
fn run_to_the_last(slip: Slip, server: &mut Server) -> Result<u32, Refusal> {
    let mut last = 0;
    loop {
        match run(slip, server)? {
            0 => return Ok(last),
            many => last = many,
        }
    }
}

pub fn run(slip: Slip, server: &mut Server) -> Result<u32, Refusal> {
    let before = server.clone();
    let many = model::run::run(server)?;
    match slip {
        Slip::GroupFallsAtEvenServers if server.id % 2 == 0 && many > 1 => run_falling(server, before),
        Slip::FullAddTakenAtEvenServers
        | Slip::PutLeavesFullAtEvenServers
        | Slip::FullReadUnmarkedAtEvenServers
        | Slip::KeptAddNotFullAtEvenServers
            if server.id % 2 == 0 =>
        {
            run_again(slip, server, &before)
        }
        Slip::InventedCount if many > 0 => return Ok(many + 1),
        _ => {}
    }
    Ok(many)
}

/// The group that the true run took, executed from the highest down.
fn run_falling(server: &mut Server, before: Server) {
    let first = server.log.entries()[before.log.entries().len()];
    let mut group: Vec<u32> = numbers_in(Waits::of(&before).group(first) | only(first)).collect();
    group.reverse();
    *server = before;
    group.into_iter().for_each(|t| execute(server, t));
}

pub fn run_all(slip: Slip, server: &mut Server) -> Result<u32, Refusal> {
    let mut many = run(slip, server)?;
    let counters = server.counters;
    loop {
        match run(slip, server)? {
            0 => return Ok(many),
            more => many += more,
        }
        if slip == Slip::FirstGroupOnly {
            server.counters = counters;
        }
    }
}
