//! A Commit or a Done and its runs, as one step: held against the two apart, on lent servers by chance.

mod common;

use chance::Chance;
use common::*;
use model::run::{run, Waits};
use model::server::keeps_form;
use model::{Message, Server};

/// Runs until 0; what each run but the last gave.
fn runs(server: &mut Server) -> Vec<u32> {
    let mut counts = Vec::new();
    loop {
        match run(server).unwrap() {
            0 => return counts,
            many => counts.push(many),
        }
    }
}

/// A number in a word of a lent server, of which some runs happened: a new one, or a repeat with the set that is held.
fn told(chance: &mut Chance) -> (Server, u32, [u64; 4]) {
    let mut server = by_chance(chance);
    for _ in 0..chance.below(4) {
        run(&mut server).unwrap();
    }
    let t = chance.below(FEW);
    let words = words_by_chance(chance, t);
    let words = server.record(t).committed.map_or(words, |held| held.0);
    (server, t, words)
}

#[test]
fn the_step_is_the_commit_and_then_runs_until_0() {
    let mut chance = Chance::of(2);
    let (mut none, mut one, mut groups, mut repeats) = (0, 0, 0, 0);
    for _ in 0..4000 {
        let (lent, t, words) = told(&mut chance);
        let mut apart = lent.clone();
        hold_committed(&mut apart, t, pieces_of(t), words);
        let counts = runs(&mut apart);
        for message in [
            Message::Commit { t, pieces: pieces_of(t), set: set(words) },
            Message::Done { t, pieces: pieces_of(t), set: set(words) },
        ] {
            let mut server = lent.clone();
            assert_eq!(count(0, t, take(&mut server, message)), counts.iter().sum());
            assert_eq!(server, apart);
            assert!(keeps_form(&server));
            assert_eq!(run(&mut server), Ok(0));
        }
        match counts[..] {
            [] => none += 1,
            [1] => one += 1,
            [_] => {}
            _ => groups += 1,
        }
        repeats += u32::from(lent.record(t).committed.is_some() && !counts.is_empty());
    }
    assert!(none > 100 && one > 100 && groups > 100 && repeats > 100, "{none} {one} {groups} {repeats}");
}

#[test]
fn what_is_refused_runs_nothing() {
    let mut chance = Chance::of(3);
    let mut ready = 0;
    for _ in 0..1000 {
        let mut server = by_chance(&mut chance);
        server.record_mut(20).pieces = Some(pieces_of(20));
        hold_committed(&mut server, 21, pieces_of(21), [1, 0, 0, 0]);
        ready += u32::from(run(&mut server.clone()).unwrap() > 0);
        let commit = |t, pieces, words| Message::Commit { t, pieces, set: set(words) };
        let done = |t, pieces, words| Message::Done { t, pieces, set: set(words) };
        for told in [&commit as &dyn Fn(_, _, _) -> _, &done] {
            assert_eq!(refused(&mut server, told(64, pieces_of(1), [0; 4])), 1);
            assert_eq!(refused(&mut server, told(22, pieces(&[]), [0; 4])), 2);
            assert_eq!(refused(&mut server, told(22, pieces_of(22), [0, 0, 1, 0])), 3);
            assert_eq!(refused(&mut server, told(20, pieces_of(1), [0; 4])), 5);
            assert_eq!(refused(&mut server, told(21, pieces_of(21), [2, 0, 0, 0])), 6);
            let mut broken = server.clone();
            broken.record_mut(30).promise = 7;
            assert_eq!(refused(&mut broken, told(22, pieces_of(22), [0; 4])), 13);
        }
    }
    assert!(ready > 900, "{ready}");
}

#[test]
fn from_a_fresh_server_no_closed_number_is_ever_left_unrun() {
    let mut chance = Chance::of(4);
    for _ in 0..500 {
        let mut server = fresh(chance.below(12));
        for _ in 0..20 {
            let t = chance.below(FEW);
            let words = server.record(t).committed.map_or(words_by_chance(&mut chance, t), |held| held.0);
            let logged = server.log.count;
            let ran = commit(&mut server, t, pieces_of(t), words);
            assert_eq!(server.log.count, logged + ran);
            let waits = Waits::of(&server);
            assert!((0..64).all(|t| waits.closed(t) == server.log.entries().contains(&t)));
        }
    }
}

#[test]
fn a_chain_of_64_that_waits_for_its_first_runs_as_the_first_comes() {
    let mut server = fresh(0);
    let piece = pieces(&[(0, 0, 2, 1)]);
    for t in 1..64 {
        assert_eq!(commit(&mut server, t, piece, [1 << (t - 1), 0, 0, 0]), 0);
    }
    assert_eq!(commit(&mut server, 0, piece, [0; 4]), 64);
    assert_eq!(server.counters[0].value, 64);
    assert_eq!(commit(&mut server, 0, piece, [0; 4]), 0);
}
