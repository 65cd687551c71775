//! Trunks between stations, letters on their way, and a clock.

use model::cluster::SERVERS;
use std::cmp::Reverse;
use std::collections::BinaryHeap;

/// Thousandths of a second.
pub type Time = u64;

pub const SECOND: Time = 1000;
pub const MINUTE: Time = 60 * SECOND;
pub const HOUR: Time = 60 * MINUTE;

/// A trunk between two stations.
pub type Trunk = (u32, u32);

/// Which trunks are cut and which stations are down. A station has one server; those from 0 to 7 have a coordinator too.
#[derive(Default)]
pub struct Trunks {
    /// How often each trunk was cut and not yet mended.
    cut: [[u32; SERVERS as usize]; SERVERS as usize],
    down: [bool; SERVERS as usize],
}

impl Trunks {
    /// Whether a letter gets from one station to another now.
    pub fn open(&self, from: u32, to: u32) -> bool {
        let up = !self.is_down(from) && !self.is_down(to);
        up && (from == to || *self.cuts(from, to) == 0)
    }

    pub fn is_down(&self, station: u32) -> bool {
        self.down[station as usize]
    }

    pub fn set_down(&mut self, station: u32, down: bool) {
        self.down[station as usize] = down;
    }

    pub fn cut(&mut self, trunks: &[Trunk]) {
        for (a, b) in trunks {
            self.cut[*a.min(b) as usize][*a.max(b) as usize] += 1;
        }
    }

    pub fn mend(&mut self, trunks: &[Trunk]) {
        for (a, b) in trunks {
            self.cut[*a.min(b) as usize][*a.max(b) as usize] -= 1;
        }
    }

    fn cuts(&self, a: u32, b: u32) -> &u32 {
        &self.cut[a.min(b) as usize][a.max(b) as usize]
    }
}

/// Things to come, in the order of their times, and of their making where the times are equal.
pub struct Agenda<T> {
    order: BinaryHeap<Reverse<(Time, usize)>>,
    things: Vec<Option<T>>,
}

impl<T> Agenda<T> {
    pub fn empty() -> Agenda<T> {
        Agenda { order: BinaryHeap::new(), things: Vec::new() }
    }

    pub fn add(&mut self, time: Time, thing: T) {
        self.order.push(Reverse((time, self.things.len())));
        self.things.push(Some(thing));
    }

    pub fn next(&mut self) -> Option<(Time, T)> {
        let Reverse((time, place)) = self.order.pop()?;
        self.things[place].take().map(|thing| (time, thing))
    }
}
