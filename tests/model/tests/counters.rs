//! What each piece does to a counter and its full mark, and what it gives, sentence by sentence.

mod common;

use common::*;
use model::counters::{do_piece, do_pieces};
use model::{Counter, Piece, Value};

const READ: u32 = 0;
const PUT: u32 = 1;
const ADD: u32 = 2;

const TOP: i32 = i32::MAX;
const BOTTOM: i32 = i32::MIN;

/// Values and operands at the ends of the range, beside them, and around 0.
const EDGES: [i32; 11] = [BOTTOM, BOTTOM + 1, BOTTOM + 2, -7, -1, 0, 1, 7, TOP - 2, TOP - 1, TOP];

/// The counter after a piece, and what the piece gave.
fn done(value: i32, full: bool, kind: u32, operand: i32) -> (Counter, Value) {
    let mut counter = Counter { value, full };
    let gave = do_piece(&mut counter, &Piece { shard: 0, key: 0, kind, operand });
    (counter, gave)
}

fn counter(value: i32, full: bool) -> Counter {
    Counter { value, full }
}

fn gives(value: i32, kept: bool) -> Value {
    Value { value, kept }
}

#[test]
fn at_first_a_counter_is_0_and_not_full() {
    assert_eq!(fresh(0).counters, [counter(0, false); 16]);
}

#[test]
fn a_sum_outside_the_range_sets_the_mark_and_nothing_else() {
    assert_eq!(done(TOP, false, ADD, 1), (counter(TOP, true), gives(TOP, true)));
    assert_eq!(done(BOTTOM, false, ADD, -1), (counter(BOTTOM, true), gives(BOTTOM, true)));
    assert_eq!(done(1, false, ADD, TOP), (counter(1, true), gives(1, true)));
    assert_eq!(done(-1, false, ADD, BOTTOM), (counter(-1, true), gives(-1, true)));
}

#[test]
fn the_ends_of_the_range_are_in_it() {
    assert_eq!(done(TOP - 1, false, ADD, 1), (counter(TOP, false), gives(TOP, false)));
    assert_eq!(done(BOTTOM + 1, false, ADD, -1), (counter(BOTTOM, false), gives(BOTTOM, false)));
    assert_eq!(done(TOP, false, ADD, 0), (counter(TOP, false), gives(TOP, false)));
    assert_eq!(done(TOP, false, READ, 0), (counter(TOP, false), gives(TOP, false)));
}

#[test]
fn while_it_is_full_an_add_that_would_fit_is_kept_too() {
    assert_eq!(done(TOP, true, ADD, -1), (counter(TOP, true), gives(TOP, true)));
    assert_eq!(done(5, true, ADD, 0), (counter(5, true), gives(5, true)));
    assert_eq!(done(BOTTOM, true, ADD, 1), (counter(BOTTOM, true), gives(BOTTOM, true)));
}

#[test]
fn a_put_clears_the_mark_even_at_the_same_value() {
    assert_eq!(done(TOP, true, PUT, 5), (counter(5, false), gives(5, false)));
    assert_eq!(done(TOP, true, PUT, TOP), (counter(TOP, false), gives(TOP, false)));
}

#[test]
fn every_edge_by_the_words_of_the_document() {
    for (value, operand) in EDGES.iter().flat_map(|value| EDGES.map(|operand| (*value, operand))) {
        let sum = i128::from(value) + i128::from(operand);
        let fits = (-2_147_483_648..=2_147_483_647).contains(&sum);
        for full in [false, true] {
            assert_eq!(done(value, full, READ, 0), (counter(value, full), gives(value, full)));
            assert_eq!(done(value, full, PUT, operand), (counter(operand, false), gives(operand, false)));
            let added = done(value, full, ADD, operand);
            if full || !fits {
                assert_eq!(added, (counter(value, true), gives(value, true)), "{value} add {operand}");
            } else {
                assert_eq!(added, (counter(sum as i32, false), gives(sum as i32, false)), "{value} add {operand}");
            }
        }
    }
}

#[test]
fn the_mark_of_one_key_is_of_no_other() {
    let mut counters = fresh(0).counters;
    counters[3].value = TOP;
    let list = pieces(&[(0, 2, ADD, 1), (0, 3, ADD, 1), (0, 4, ADD, 1), (1, 3, PUT, 0)]);
    let gave = do_pieces(&mut counters, &list, 0);
    assert_eq!(gave.entries(), [gives(1, false), gives(TOP, true), gives(1, false)]);
    let full: Vec<usize> = (0..16).filter(|key| counters[*key].full).collect();
    assert_eq!(full, [3]);
}
