//! The day that the program `demo` shows: deliveries at dawn, then exchanges over two shards in four bursts. One of them is cut when its Commit has reached some stations and not the others, and its coordinator is without power for hours.

use super::{Day, Event, Task, Weather};
use crate::cluster::Cluster;
use crate::net::{Time, HOUR, MINUTE};
use crate::work::{self, Ground};
use chance::Chance;
use engine::Engine;
use model::cluster::{origin, servers_of, COORDINATORS, SHARDS};
use model::pieces::ADD;
use model::{Piece, Pieces};

/// How long the day is.
pub const HOURS: u32 = 24;
/// Kinds of spares: the keys from 0 on.
pub const KINDS: u32 = 3;

/// What is delivered of each kind to each shard.
const DELIVERED: i32 = 100;
const DAWN: Time = 6 * HOUR;
/// When exchanges begin, and how many each time.
const BURSTS: [Time; 4] = [8 * HOUR, 11 * HOUR, 14 * HOUR, 18 * HOUR];
const EXCHANGES: usize = 4;
/// The exchange that is cut half-way, by its burst and its place there.
const DOOMED: (usize, usize) = (1, 0);

/// Passes the day before the eyes of a watcher.
pub fn pass_shown<E: Engine>(
    cluster: &mut Cluster<E>,
    chance: &mut Chance,
    watch: &mut dyn FnMut(Time, &mut Cluster<E>),
) {
    let weather = Weather { hours: HOURS, loss: 4, repeat: 10, late: 2, cut: 12 };
    let ground = Ground { shards: (0..SHARDS).collect(), keys: KINDS, most_pieces: 2, reads: 0 };
    let mut day = Day::new(cluster, chance, weather, ground);
    day.plan_shown();
    day.go(watch);
}

impl<E: Engine> Day<'_, '_, E> {
    fn plan_shown(&mut self) {
        let mut first = 0;
        for (t, shards) in self.numbers_from(first).into_iter().zip([[0, 1], [2, 3]]) {
            self.plan_number(t, DAWN, delivery(&shards));
        }
        for (burst, time) in BURSTS.into_iter().enumerate() {
            first += COORDINATORS;
            for (place, t) in self.numbers_from(first).into_iter().take(EXCHANGES).enumerate() {
                let pieces = self.exchange();
                self.plan_number(t, time, pieces);
                if (burst, place) == DOOMED {
                    self.doomed = Some(t);
                }
            }
        }
        for shard in work::some_shards(self.chance, 3) {
            let station = servers_of(shard).start + self.chance.below(3);
            let from = 7 * HOUR + self.moment(9 * HOUR);
            self.agenda.add(from, Event::Down(station));
            let until = from + Time::from(self.chance.between(2, 5)) * HOUR + self.moment(HOUR);
            self.agenda.add(until, Event::Up(station));
        }
    }

    /// Eight numbers in an order by chance, one of each coordinator.
    fn numbers_from(&mut self, first: u32) -> Vec<u32> {
        let mut numbers: Vec<u32> = (first..first + COORDINATORS).collect();
        self.chance.shuffle(&mut numbers);
        numbers
    }

    fn plan_number(&mut self, t: u32, burst: Time, pieces: Pieces) {
        self.planned.insert(t, pieces);
        let time = burst + self.moment(MINUTE);
        self.agenda.add(time, Event::Give(origin(t), Task::Begin(t)));
    }

    /// Some spares of one kind go from one shard to another.
    fn exchange(&mut self) -> Pieces {
        let shards = work::some_shards(self.chance, 2);
        let (key, many) = (self.chance.below(KINDS), self.chance.between(2, 9) as i32);
        let mut pieces = [(shards[0], -many), (shards[1], many)];
        pieces.sort_unstable();
        Pieces::of(&pieces.map(|(shard, operand)| Piece { shard, key, kind: ADD, operand }))
    }
}

/// So many of each kind for each of these shards.
fn delivery(shards: &[u32]) -> Pieces {
    let kinds = |shard| (0..KINDS).map(move |key| Piece { shard, key, kind: ADD, operand: DELIVERED });
    Pieces::of(&shards.iter().copied().flat_map(kinds).collect::<Vec<_>>())
}
