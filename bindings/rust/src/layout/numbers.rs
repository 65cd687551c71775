//! Every number of a state, one by one, so that it can be stored, and any of them changed.

use super::{Drive, MaybeSet, MaybeVote, MaybeWord, Pieces, Record, Server, Set, Slot, Values};

/// A place for a number in a state.
pub enum Place<'a> {
    /// Unsigned, 32 bits.
    Number(&'a mut u32),
    /// Signed, 32 bits.
    Signed(&'a mut i32),
    /// A word of 64 bits.
    Word(&'a mut u64),
}

/// What is called with each place.
pub type Visit<'v> = &'v mut dyn FnMut(Place);

/// A state whose numbers can be visited one by one, always in the order of the struct.
pub trait Numbers {
    /// Visits each number, those that are ignored too.
    fn visit(&mut self, visit: Visit);

    /// How many numbers there are.
    fn many(&mut self) -> u32 {
        let mut many = 0;
        self.visit(&mut |_| many += 1);
        many
    }
}

fn number(visit: Visit, number: &mut u32) {
    visit(Place::Number(number));
}

impl Numbers for Pieces {
    fn visit(&mut self, visit: Visit) {
        for piece in &mut self.list {
            number(visit, &mut piece.shard);
            number(visit, &mut piece.key);
            number(visit, &mut piece.kind);
            visit(Place::Signed(&mut piece.operand));
        }
        number(visit, &mut self.count);
    }
}

impl Numbers for Set {
    fn visit(&mut self, visit: Visit) {
        for word in [&mut self.w0, &mut self.w1, &mut self.w2, &mut self.w3] {
            visit(Place::Word(word));
        }
    }
}

impl Numbers for MaybeWord {
    fn visit(&mut self, visit: Visit) {
        number(visit, &mut self.some);
        visit(Place::Word(&mut self.word));
    }
}

impl Numbers for MaybeVote {
    fn visit(&mut self, visit: Visit) {
        number(visit, &mut self.some);
        number(visit, &mut self.ballot);
        self.set.visit(visit);
    }
}

impl Numbers for MaybeSet {
    fn visit(&mut self, visit: Visit) {
        number(visit, &mut self.some);
        self.set.visit(visit);
    }
}

impl Numbers for Values {
    fn visit(&mut self, visit: Visit) {
        for value in &mut self.list {
            visit(Place::Signed(&mut value.value));
            number(visit, &mut value.kept);
        }
        number(visit, &mut self.count);
    }
}

impl Numbers for Record {
    fn visit(&mut self, visit: Visit) {
        self.pieces.visit(visit);
        number(visit, &mut self.promise);
        self.arrival.visit(visit);
        self.accepted.visit(visit);
        self.committed.visit(visit);
        number(visit, &mut self.ran);
        self.values.visit(visit);
    }
}

impl Numbers for Server {
    fn visit(&mut self, visit: Visit) {
        number(visit, &mut self.id);
        self.records.iter_mut().for_each(|record| record.visit(visit));
        for counter in &mut self.counters.list {
            visit(Place::Signed(&mut counter.value));
            number(visit, &mut counter.full);
        }
        self.log.list.iter_mut().for_each(|logged| number(visit, logged));
        number(visit, &mut self.log.count);
    }
}

impl Numbers for Slot {
    fn visit(&mut self, visit: Visit) {
        number(visit, &mut self.counted);
        self.arrival.visit(visit);
        self.accepted.visit(visit);
    }
}

impl Numbers for Drive {
    fn visit(&mut self, visit: Visit) {
        for field in [&mut self.t, &mut self.coordinator, &mut self.ballot, &mut self.phase] {
            number(visit, field);
        }
        self.pieces.visit(visit);
        self.answers.iter_mut().for_each(|answer| answer.visit(visit));
        self.chosen.visit(visit);
        number(visit, &mut self.seen);
    }
}
