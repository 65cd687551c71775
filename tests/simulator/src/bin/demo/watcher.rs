//! Watches the day, and says what is worth saying.

use crate::screen::Screen;
use crate::words;
use engine::{text, Engine};
use model::cluster::servers_of;
use model::{codec, Message, Pieces};
use simulator::cluster::Cluster;
use simulator::day::HOURS;
use simulator::net::{Time, Trunk, HOUR, MINUTE};
use simulator::news::{Inside, News};
use std::collections::{BTreeMap, BTreeSet};

/// A number that was begun: when, what it does, and where it has yet to run.
struct Number {
    begun: Time,
    pieces: Pieces,
    missing: BTreeSet<u32>,
}

pub struct Watcher {
    screen: Screen,
    now: Time,
    numbers: BTreeMap<u32, Number>,
    /// Who has been told of what by another.
    learned: BTreeSet<(u32, u32)>,
    /// How many ran at the Commit of a number, as a station has said.
    said: BTreeSet<(u32, usize)>,
    /// A number that was cut half-way at its Commit, and when its stations are compared.
    halved: Option<(Time, u32)>,
    down: BTreeSet<u32>,
    lost: u64,
    taken: u64,
}

impl Watcher {
    pub fn new(screen: Screen) -> Watcher {
        Watcher {
            screen,
            now: 0,
            numbers: BTreeMap::new(),
            learned: BTreeSet::new(),
            said: BTreeSet::new(),
            halved: None,
            down: BTreeSet::new(),
            lost: 0,
            taken: 0,
        }
    }

    /// What happened up to now.
    pub fn watch<E: Engine>(&mut self, time: Time, cluster: &mut Cluster<E>) {
        if let Some((at, t)) = self.halved.filter(|(at, _)| *at <= time) {
            self.halved = None;
            self.run_to(at);
            let counts = self.counts(t, cluster);
            if !self.is_done(t) && !counts.is_empty() {
                self.tell(&format!("half of T{t} is done{counts}"));
            }
        }
        self.run_to(time);
        (self.taken, self.lost) = (cluster.tally.taken, cluster.tally.lost);
        for news in std::mem::take(&mut cluster.news) {
            self.hear(news, cluster);
        }
    }

    /// The end of the day, before all that is left is driven to its end.
    pub fn night<E: Engine>(&mut self, cluster: &mut Cluster<E>) {
        self.watch(Time::from(HOURS) * HOUR, cluster);
        self.tell("all trunks are up, and what is not done yet is driven to its end");
    }

    /// What the calm did. Everyone recovers what it began then, which is not worth a line.
    pub fn close<E: Engine>(&mut self, cluster: &mut Cluster<E>) {
        for news in std::mem::take(&mut cluster.news) {
            if let News::Committed { .. } = news {
                self.hear(news, cluster);
            }
        }
        self.screen.clear();
        println!();
    }

    fn hear<E: Engine>(&mut self, news: News, cluster: &Cluster<E>) {
        match news {
            News::Begun { coordinator, t, pieces } => {
                let missing = pieces.shards().flat_map(servers_of).collect();
                self.numbers.insert(t, Number { begun: self.now, pieces, missing });
                self.tell(&format!("coordinator {coordinator} begins T{t}: {}", words::work(&pieces)));
            }
            News::Recovered { t, .. } if self.is_done(t) => {}
            News::Recovered { coordinator, t, floor } => {
                self.tell(&format!("coordinator {coordinator} recovers T{t} above ballot {floor}"));
            }
            News::Vanished { coordinator, t } => {
                self.tell(&format!("coordinator {coordinator} has lost its drive for T{t}"));
            }
            News::Committed { server, t, many, log } => {
                let ran = &log[log.len() - many as usize..];
                self.committed(server, t, ran);
                ran.iter().for_each(|t| self.ran(server, *t, cluster));
            }
            News::Learned { server, t } => {
                let missing = self.numbers.get(&t).map_or(false, |number| number.missing.contains(&server));
                if missing && self.learned.insert((server, t)) {
                    self.tell(&format!("station {server} asked, and learns of T{t} from another"));
                }
            }
            News::Cut { trunks, inside: Some(inside) } => self.cut(&trunks, &inside),
            News::Cut { .. } | News::Mended(_) => {}
            News::Down(station) => {
                self.down.insert(station);
                self.tell(&format!("station {station} is down"));
            }
            News::Up(station) => {
                self.down.remove(&station);
                self.tell(&format!("station {station} is up again"));
            }
        }
    }

    /// Trunks were cut half-way. If it was at a Commit, its stations are compared a little later.
    fn cut(&mut self, trunks: &[Trunk], inside: &Inside) {
        if let Ok(message) = codec::decode(&inside.message) {
            let t = message.t();
            if !self.is_done(t) {
                self.tell(&words::cut(trunks, &message, inside));
            }
            if let Message::Commit { .. } = message {
                self.halved = self.halved.or(Some((self.now + MINUTE, t)));
            }
        }
    }

    fn is_done(&self, t: u32) -> bool {
        self.numbers.get(&t).map_or(false, |number| number.missing.is_empty())
    }

    /// A station took a Commit. If it ran nothing, or more than one number, that is worth a line, the first time that one says so of the number.
    fn committed(&mut self, server: u32, t: u32, ran: &[u32]) {
        if ran.len() != 1 && self.said.insert((t, ran.len())) {
            self.tell(&words::committed(server, t, ran));
        }
    }

    /// A number has run at a server. If that is the last of its servers, it is done.
    fn ran<E: Engine>(&mut self, server: u32, t: u32, cluster: &Cluster<E>) {
        if let Some(number) = self.numbers.get_mut(&t) {
            if number.missing.remove(&server) && number.missing.is_empty() {
                let took = words::duration(self.now - number.begun);
                let counts = self.counts(t, cluster);
                self.tell(&format!("T{t} has run at all its stations{took}{counts}"));
            }
        }
    }

    /// What the stations of an exchange count of its spares; nothing of a delivery, which is of every kind.
    fn counts<E: Engine>(&self, t: u32, cluster: &Cluster<E>) -> String {
        let servers = cluster.see();
        let pieces = self.numbers[&t].pieces;
        if pieces.count != 2 {
            return String::new();
        }
        let counts = |shard: u32, key: u32| {
            let count = |s: u32| text::value(&servers[s as usize].counters[key as usize].reading());
            let counts: Vec<String> = servers_of(shard).map(count).collect();
            format!("shard {shard} counts {}", counts.join(" "))
        };
        let said: Vec<String> = pieces.entries().iter().map(|piece| counts(piece.shard, piece.key)).collect();
        format!(": {} {}", said.join(", "), words::SPARES[pieces.list[0].key as usize])
    }

    fn run_to(&mut self, time: Time) {
        self.now = time;
        let status = self.status();
        self.screen.run_to(time, &status);
    }

    fn tell(&mut self, words: &str) {
        let status = self.status();
        self.screen.tell(words, &status);
    }

    fn status(&self) -> String {
        let done = self.numbers.keys().filter(|t| self.is_done(**t)).count();
        let down: String = self.down.iter().map(|station| format!(" {station}")).collect();
        let down = if down.is_empty() { down } else { format!(", down:{down}") };
        format!("{done} of {} done, {} messages, {} lost{down}", self.numbers.len(), self.taken, self.lost)
    }
}
