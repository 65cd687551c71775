//! The bench cases A to L of document 01.

mod common;

use common::*;
use model::drive::{self, ACCEPT, COMMIT};
use model::run::{run, wanted};
use model::{ballots, codec, Drive, Message, Pieces, Refusal, Server, Value, Vote};

const READ: u32 = 0;
const PUT: u32 = 1;
const ADD: u32 = 2;

/// Server 0 after A: T8 and T1 arrived.
fn after_a() -> Server {
    let mut server = fresh(0);
    let t8 = pieces(&[(0, 3, PUT, 5)]);
    let t1 = pieces(&[(0, 3, ADD, 2)]);
    let word = |t, word| Message::PreAcceptOk { t, server: 0, ballot: 0, word };
    assert_eq!(pre_accepted(&mut server, 8, 0, t8), word(8, 0));
    assert_eq!(pre_accepted(&mut server, 1, 0, t1), word(1, 256));
    assert_eq!(pre_accepted(&mut server, 8, 0, t8), word(8, 0));
    server
}

fn after_b() -> Server {
    let mut server = after_a();
    let t8 = pieces(&[(0, 3, PUT, 5)]);
    let prepared = Message::PrepareOk { t: 8, server: 0, ballot: 8, arrival: Some(0), accepted: None };
    assert_eq!(take(&mut server, Message::Prepare { t: 8, ballot: 8, pieces: t8 }), prepared);
    let behind = Message::Behind { t: 8, server: 0, asked: 0, promise: 8 };
    assert_eq!(pre_accepted(&mut server, 8, 0, t8), behind);
    server
}

#[test]
fn a_the_second_of_two_in_conflict_names_the_first() {
    after_a();
}

#[test]
fn b_a_promise_shuts_out_a_lower_ballot() {
    after_b();
}

#[test]
fn c_a_repeated_pre_accept_leaves_what_is_accepted() {
    let mut server = after_b();
    let t8 = pieces(&[(0, 3, PUT, 5)]);
    let accept = Message::Accept { t: 8, ballot: 8, pieces: t8, set: set([0; 4]) };
    assert_eq!(take(&mut server, accept), Message::AcceptOk { t: 8, server: 0, ballot: 8 });
    let again = Message::PreAcceptOk { t: 8, server: 0, ballot: 8, word: 0 };
    assert_eq!(pre_accepted(&mut server, 8, 8, t8), again);
    assert_eq!(server.record(8).accepted, Some(Vote { ballot: 8, set: set([0; 4]) }));
}

fn t8_of_d() -> Pieces {
    pieces(&[(0, 3, PUT, 5), (1, 0, PUT, 5)])
}

fn t1_of_d() -> Pieces {
    pieces(&[(0, 3, ADD, 2), (1, 0, ADD, 2)])
}

#[test]
fn d_two_that_name_each_other_run_together_in_rising_number() {
    let mut server = fresh(0);
    assert_eq!(commit(&mut server, 8, t8_of_d(), [0, 2, 0, 0]), 0);
    assert_eq!(commit(&mut server, 1, t1_of_d(), [256, 0, 0, 0]), 2);
    assert_eq!(server.log.entries(), [1, 8]);
    assert_eq!(server.counters[3].reading(), Value { value: 5, kept: false });
    assert_eq!(run(&mut server), Ok(0));
}

#[test]
fn e_a_number_that_waits_wants_what_it_waits_for() {
    let mut server = fresh(0);
    assert_eq!(commit(&mut server, 8, t8_of_d(), [0, 2, 0, 0]), 0);
    assert_eq!(server.log.entries(), []);
    assert_eq!(wanted(&server), Ok(set([0, 2, 0, 0])));
}

#[test]
fn f_one_after_the_other_runs_one_by_one() {
    let mut server = fresh(0);
    let touching = pieces(&[(0, 0, ADD, 1)]);
    assert_eq!(commit(&mut server, 1, touching, [0; 4]), 1);
    assert_eq!(commit(&mut server, 2, touching, [2, 0, 0, 0]), 1);
    assert_eq!(run(&mut server), Ok(0));
    assert_eq!(server.log.entries(), [1, 2]);
}

#[test]
fn g_next_ballots() {
    assert_eq!(ballots::next(0, 0), Ok(8));
    assert_eq!(ballots::next(3, 8), Ok(11));
    assert_eq!(ballots::next(2, 65_529), Ok(65_530));
    assert_eq!(ballots::next(2, 65_530), Err(Refusal::NoNextBallot));
}

/// Pieces of shard 0 one after the other, T0 first, and what the last piece of each gives at server 0.
fn one_after_the_other(done: &[&[(u32, u32, u32, i32)]]) -> Vec<(i32, bool)> {
    let mut server = fresh(0);
    let after = |t: u32| [if t == 0 { 0 } else { 1 << (t - 1) }, 0, 0, 0];
    (0..)
        .zip(done)
        .map(|(t, list)| {
            assert_eq!(commit(&mut server, t, pieces(list), after(t)), 1);
            let results = server.record(t).results.unwrap();
            let last = results.entries().last().unwrap();
            (last.value, last.kept)
        })
        .collect()
}

#[test]
fn h_an_add_outside_the_range_is_kept_and_the_read_after_it_says_so() {
    let high = one_after_the_other(&[
        &[(0, 0, PUT, 2_147_483_646)],
        &[(0, 0, ADD, 1)],
        &[(0, 0, READ, 0)],
        &[(0, 0, ADD, 1)],
        &[(0, 0, READ, 0)],
    ]);
    let top = 2_147_483_647;
    assert_eq!(high, [(2_147_483_646, false), (top, false), (top, false), (top, true), (top, true)]);
    let low = one_after_the_other(&[&[(0, 0, PUT, -2_147_483_648)], &[(0, 0, ADD, -1)], &[(0, 0, READ, 0)]]);
    let bottom = -2_147_483_648;
    assert_eq!(low, [(bottom, false), (bottom, true), (bottom, true)]);
}

#[test]
fn h_the_other_pieces_still_run() {
    let other = one_after_the_other(&[
        &[(0, 0, PUT, i32::MIN)],
        &[(0, 0, ADD, -1), (0, 1, ADD, 7)],
        &[(0, 0, READ, 0), (0, 1, READ, 0)],
        &[(0, 0, READ, 0)],
    ]);
    assert_eq!(other, [(i32::MIN, false), (7, false), (7, false), (i32::MIN, true)]);
}

#[test]
fn h_what_is_full_stays_so_until_a_put() {
    let filled = one_after_the_other(&[
        &[(0, 0, ADD, i32::MAX)],
        &[(0, 0, ADD, 1)],
        &[(0, 0, ADD, -5)],
        &[(0, 0, ADD, 0)],
        &[(0, 0, READ, 0)],
        &[(0, 0, PUT, i32::MAX)],
        &[(0, 0, READ, 0)],
        &[(0, 0, ADD, -5)],
    ]);
    let top = i32::MAX;
    assert_eq!(filled[..5], [(top, false), (top, true), (top, true), (top, true), (top, true)]);
    assert_eq!(filled[5..], [(top, false), (top, false), (top - 5, false)]);
}

#[test]
fn i_two_reads_of_one_key_do_not_conflict() {
    let mut server = fresh(0);
    let reads = pieces(&[(0, 3, READ, 0)]);
    for t in [8, 1] {
        let word = Message::PreAcceptOk { t, server: 0, ballot: 0, word: 0 };
        assert_eq!(pre_accepted(&mut server, t, 0, reads), word);
    }
}

#[test]
fn j_a_set_with_its_own_number_and_a_number_above_63() {
    let mut server = fresh(0);
    let touching = pieces(&[(0, 3, PUT, 5)]);
    let own = set([1 << 63, 0, 0, 0]);
    assert_eq!(refused(&mut server, Message::Commit { t: 63, pieces: touching, set: own }), 3);
    assert_eq!(refused(&mut server, Message::Accept { t: 63, ballot: 0, pieces: touching, set: own }), 3);
    assert_eq!(refused(&mut server, Message::Commit { t: 64, pieces: touching, set: own }), 1);
    assert_eq!(refused(&mut server, Message::Inquire { t: 64 }), 1);
}

#[test]
fn k_the_bytes_of_an_inquire() {
    let bytes = [0, 0, 0, 4, 0, 0, 0, 9];
    assert_eq!(codec::bytes_of(&Message::Inquire { t: 9 }), Ok(bytes.to_vec()));
    assert_eq!(codec::decode(&bytes), Ok(Message::Inquire { t: 9 }));
    assert_eq!(codec::decode(&bytes[..7]).map_err(number), Err(10));
    assert_eq!(codec::decode(&[0, 0, 0, 4, 0, 0, 0, 9, 0]).map_err(number), Err(11));
    assert_eq!(codec::decode(&[0, 0, 0, 6, 0, 0, 0, 9]).map_err(number), Err(12));
}

#[test]
fn l_equal_words_of_all_three_commit_at_once() {
    let drive_after = |words: [u64; 3]| {
        let mut drive = Drive::default();
        drive::start(&mut drive, 0, 8, &pieces(&[(0, 3, PUT, 5)])).unwrap();
        for (server, word) in (0..).zip(words) {
            drive::reply(&mut drive, &Message::PreAcceptOk { t: 8, server, ballot: 0, word }).unwrap();
        }
        drive
    };
    let slow = drive_after([0, 0, 2]);
    assert_eq!((slow.phase, slow.set), (ACCEPT, Some(set([2, 0, 0, 0]))));
    let fast = drive_after([0, 0, 0]);
    assert_eq!((fast.phase, fast.set), (COMMIT, Some(set([0; 4]))));
}
