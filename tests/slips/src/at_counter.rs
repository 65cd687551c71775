//! Slips in what a piece does to its counter and the full mark.

use crate::Slip;
use model::counters::do_piece as true_piece;
use model::pieces::{ADD, PUT, READ};
use model::{Counter, Piece, Server, Value, Values};

/// Does once more, with a slip, what a run did from a state before it.
pub fn run_again(slip: Slip, server: &mut Server, before: &Server) {
    let ran: Vec<u32> = server.log.entries()[before.log.entries().len()..].to_vec();
    let mut counters = before.counters;
    for t in ran {
        let pieces = server.record(t).pieces.unwrap_or_default();
        let here = pieces.on(server.shard());
        let values: Vec<Value> = here.map(|piece| do_piece(slip, &mut counters[piece.key as usize], piece)).collect();
        server.record_mut(t).results = Some(Values::of(&values));
    }
    server.counters = counters;
}

fn do_piece(slip: Slip, counter: &mut Counter, piece: &Piece) -> Value {
    let found = *counter;
    let gave = true_piece(counter, piece);
    match (slip, piece.kind) {
        (Slip::FullAddTakenAtEvenServers, ADD) if found.full => {
            if let Some(sum) = found.value.checked_add(piece.operand) {
                counter.value = sum;
                return Value { value: sum, kept: false };
            }
        }
        (Slip::PutLeavesFullAtEvenServers, PUT) => counter.full = found.full,
        (Slip::FullReadUnmarkedAtEvenServers, READ) => return Value { kept: false, ..gave },
        (Slip::KeptAddNotFullAtEvenServers, ADD) => counter.full = found.full,
        _ => {}
    }
    gave
}
