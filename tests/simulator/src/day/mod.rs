//! A day by the clock. Numbers are begun in bursts; letters are delayed, lost and repeated; trunks are cut inside an exchange, when some of its letters have arrived and others haven't; stations are down for hours, and some lose their drives.

mod desks;
mod letters;
mod looks;
mod shown;

use crate::cluster::Cluster;
use crate::net::{Agenda, Time, Trunk, Trunks, HOUR, MINUTE, SECOND};
use crate::news::{Inside, News};
use crate::work::{self, Ground};
use chance::Chance;
use engine::Engine;
use model::cluster::{origin, COORDINATORS, SERVERS, SHARDS};
use model::Pieces;
use std::collections::{BTreeMap, VecDeque};

pub use shown::{pass_shown, HOURS, KINDS};

/// Who sends or gets a letter. A coordinator sits at the station of its number, a drive is one of its own.
#[derive(Clone, Copy)]
enum Address {
    Drive { coordinator: u32, slot: usize },
    Server(u32),
}

impl Address {
    fn station(self) -> u32 {
        match self {
            Address::Drive { coordinator, .. } => coordinator,
            Address::Server(server) => server,
        }
    }
}

#[derive(Clone)]
struct Letter {
    from: Address,
    to: Address,
    bytes: Vec<u8>,
}

enum Event {
    Arrive(Letter),
    /// A coordinator is given a number to begin or to recover.
    Give(u32, Task),
    /// A coordinator looks at its drive, if this is the look that it was last waiting for.
    Tick(u32, u32),
    /// A station looks at what its server wants.
    Look(u32),
    Cut(Vec<Trunk>, Option<Inside>),
    Mend(Vec<Trunk>),
    /// A station is down, and perhaps its drive is gone.
    Down(u32),
    /// A station is without power, and its drive is gone.
    Lose(u32),
    Up(u32),
}

#[derive(Clone, Copy, PartialEq)]
enum Task {
    Begin(u32),
    Recover(u32),
}

/// A coordinator: its one drive, and what it has yet to do.
#[derive(Default)]
struct Desk {
    tasks: VecDeque<Task>,
    slot: Option<usize>,
    /// The message that was due last, and how often it was sent.
    last: Vec<u8>,
    sent: u32,
    /// How long it waits before it looks at its drive again, and which look that is.
    pauses: u32,
    look: u32,
    /// The servers that answered a Commit.
    told: Vec<u32>,
}

/// How bad the day is.
struct Weather {
    hours: u32,
    loss: u32,
    repeat: u32,
    late: u32,
    cut: u32,
}

struct Day<'c, 'e, E: Engine> {
    cluster: &'c mut Cluster<'e, E>,
    chance: &'c mut Chance,
    weather: Weather,
    ground: Ground,
    /// The pieces of numbers that are not left to chance.
    planned: BTreeMap<u32, Pieces>,
    /// A number whose Commit is cut half-way, and whose coordinator is without power from then on.
    doomed: Option<u32>,
    agenda: Agenda<Event>,
    trunks: Trunks,
    desks: Vec<Desk>,
    /// How often each station looked since it last wanted nothing, and whether a look is to come.
    looks: Vec<u32>,
    looking: Vec<bool>,
    now: Time,
}

pub fn pass<E: Engine>(cluster: &mut Cluster<E>, chance: &mut Chance) {
    let weather = Weather {
        hours: chance.between(2, 12),
        loss: chance.pick(&[0, 2, 10, 30]),
        repeat: chance.pick(&[0, 5, 30]),
        late: chance.pick(&[0, 2, 10]),
        cut: chance.pick(&[0, 20, 60]),
    };
    let many_shards = chance.between(1, SHARDS);
    let shards = (0..SHARDS).filter(|shard| *shard < many_shards).collect();
    let ground = Ground { shards, keys: chance.between(1, 4), most_pieces: chance.between(1, 8), reads: 20 };
    let mut day = Day::new(cluster, chance, weather, ground);
    day.plan();
    day.go(&mut |_, _| {});
}

impl<'c, 'e, E: Engine> Day<'c, 'e, E> {
    fn new(cluster: &'c mut Cluster<'e, E>, chance: &'c mut Chance, weather: Weather, ground: Ground) -> Self {
        Day {
            cluster,
            chance,
            weather,
            ground,
            planned: BTreeMap::new(),
            doomed: None,
            agenda: Agenda::empty(),
            trunks: Trunks::default(),
            desks: (0..COORDINATORS).map(|_| Desk::default()).collect(),
            looks: vec![0; SERVERS as usize],
            looking: vec![false; SERVERS as usize],
            now: 0,
        }
    }

    /// Bursts of numbers, recoveries by others, stations down and trunks cut for a while.
    fn plan(&mut self) {
        let end = Time::from(self.weather.hours) * HOUR;
        let many = self.chance.between(3, 20) as usize;
        let bursts: Vec<Time> = (0..self.chance.between(1, 4)).map(|_| self.moment(end)).collect();
        for t in work::numbers(self.chance, many) {
            let time = self.chance.pick(&bursts) + self.moment(SECOND);
            self.agenda.add(time, Event::Give(origin(t), Task::Begin(t)));
            if self.chance.percent(30) {
                let later = time + if self.chance.percent(50) { self.moment(2 * SECOND) } else { self.moment(HOUR) };
                self.agenda.add(later, Event::Give(self.chance.below(COORDINATORS), Task::Recover(t)));
            }
        }
        for _ in 0..self.chance.below(5) {
            let (station, from) = (self.chance.below(SERVERS), self.moment(end));
            self.agenda.add(from, Event::Down(station));
            let hours = Time::from(self.chance.between(1, 6)) * HOUR;
            let until = from + hours + self.moment(HOUR);
            self.agenda.add(until, Event::Up(station));
        }
        for _ in 0..self.chance.below(4) {
            let from = self.chance.pick(&bursts) + self.moment(SECOND);
            let half = self.chance.word() as u32;
            let apart = |a: u32, b: u32| (half >> a ^ half >> b) & 1 == 1;
            let trunks =
                (0..SERVERS).flat_map(|a| (a + 1..SERVERS).map(move |b| (a, b))).filter(|(a, b)| apart(*a, *b));
            self.cut_for_a_while(from, trunks.collect(), None);
        }
    }

    /// A time before an end.
    fn moment(&mut self, end: Time) -> Time {
        self.chance.word() % end
    }

    fn cut_for_a_while(&mut self, from: Time, trunks: Vec<Trunk>, inside: Option<Inside>) {
        let length = if self.chance.percent(50) { self.moment(MINUTE) } else { self.moment(2 * HOUR) };
        self.agenda.add(from, Event::Cut(trunks.clone(), inside));
        self.agenda.add(from + 1 + length, Event::Mend(trunks));
    }

    /// Lets everything happen in its time, before the eyes of a watcher.
    fn go(&mut self, watch: &mut dyn FnMut(Time, &mut Cluster<E>)) {
        let end = Time::from(self.weather.hours) * HOUR;
        while let Some((time, event)) = self.agenda.next() {
            if time > end || self.cluster.fault.is_some() {
                break;
            }
            self.now = time;
            self.cluster.story.clock = Some(time);
            self.happen(event);
            watch(time, self.cluster);
        }
        self.cluster.story.clock = None;
    }

    fn happen(&mut self, event: Event) {
        match event {
            Event::Arrive(letter) => self.arrive(letter),
            Event::Give(coordinator, task) => self.give(coordinator, task),
            Event::Tick(coordinator, look) if look == self.desks[coordinator as usize].look => self.tick(coordinator),
            Event::Tick(..) => {}
            Event::Look(station) => self.look(station),
            Event::Cut(trunks, inside) => {
                let inside = inside.map(|inside| self.really_reached(inside));
                self.trunks.cut(&trunks);
                self.cluster.report(News::Cut { trunks, inside });
            }
            Event::Mend(trunks) => {
                self.trunks.mend(&trunks);
                self.cluster.report(News::Mended(trunks));
            }
            Event::Down(station) => {
                self.go_down(station);
                if self.has_drive(station) && self.chance.percent(50) {
                    self.lose_drive(station);
                }
            }
            Event::Lose(station) => {
                self.go_down(station);
                self.lose_drive(station);
            }
            Event::Up(station) => self.come_up(station),
        }
    }

    /// A letter has not reached a station that is down or behind another cut.
    fn really_reached(&self, inside: Inside) -> Inside {
        let Inside { coordinator, message, reached, mut missed } = inside;
        let (reached, lost) = reached.into_iter().partition(|station| self.trunks.open(coordinator, *station));
        missed.extend::<Vec<u32>>(lost);
        Inside { coordinator, message, reached, missed }
    }

    fn go_down(&mut self, station: u32) {
        self.cluster.report(News::Down(station));
        self.cluster.tally.downs += 1;
        self.trunks.set_down(station, true);
    }

    fn has_drive(&self, station: u32) -> bool {
        self.desks.get(station as usize).map_or(false, |desk| desk.slot.is_some())
    }

    fn lose_drive(&mut self, station: u32) {
        if let Some(slot) = self.desks.get_mut(station as usize).and_then(|desk| desk.slot.take()) {
            self.cluster.vanish(slot);
        }
    }

    /// A station is up again: a run until 0, as at every start-up, and a look at what it wants.
    fn come_up(&mut self, station: u32) {
        self.cluster.report(News::Up(station));
        self.trunks.set_down(station, false);
        self.cluster.run(station, true);
        self.agenda.add(self.now, Event::Look(station));
        if station < COORDINATORS {
            self.tick(station);
        }
    }
}
