//! What runs did to a server, read off its states before and after them: to its counters, piece by piece; and the server without it.

use model::counters::do_piece;
use model::{Counter, Piece, Server};

/// A piece that ran, and its counter as it found it and, by the rules, left it.
#[derive(Clone, Copy, Debug, PartialEq, Eq)]
pub struct Done {
    pub piece: Piece,
    pub from: Counter,
    pub to: Counter,
}

impl Done {
    /// Whether it is an add whose sum is in the signed 32-bit range.
    pub fn fits(&self) -> bool {
        i32::try_from(self.sum()).is_ok()
    }

    pub fn sum(&self) -> i64 {
        i64::from(self.from.value) + i64::from(self.piece.operand)
    }
}

/// The pieces on the server's shard of the numbers that were logged between two states, in their order.
pub fn pieces_run(before: &Server, after: &Server) -> Vec<Done> {
    let mut counters = before.counters;
    let logged = before.log.entries().len();
    let mut done = Vec::new();
    for t in after.log.entries().iter().skip(logged) {
        let pieces = after.record(*t).pieces.unwrap_or_default();
        for piece in pieces.on(after.shard()) {
            let counter = &mut counters[piece.key as usize];
            let from = *counter;
            do_piece(counter, piece);
            done.push(Done { piece: *piece, from, to: *counter });
        }
    }
    done
}

/// Leaves what a step holds, and none of what it ran: the Commit without its runs.
pub fn take_back(server: &mut Server, before: &Server) {
    let logged = before.log.entries().len();
    let ran: Vec<u32> = server.log.entries()[logged..].to_vec();
    ran.into_iter().for_each(|t| server.record_mut(t).results = None);
    (server.log, server.counters) = (before.log, before.counters);
}
