//! A storm: what was sent may arrive at any time, in any order, any number of times, or never. Few numbers on little ground, so that they are always in each other's way.

mod weather;

use crate::cluster::Cluster;
use crate::work::{self, Ground};
use chance::Chance;
use engine::Engine;
use model::cluster::{numbers_in, servers_of, COORDINATORS, SERVERS, SHARDS};
use model::{codec, Message};
use weather::Weather;

/// Something on its way.
#[derive(Clone)]
enum Sent {
    /// A message for a server, and who gets its answer.
    ToServer {
        server: u32,
        bytes: Vec<u8>,
        answer_to: Asker,
    },
    ToDrive {
        slot: usize,
        bytes: Vec<u8>,
    },
}

#[derive(Clone, Copy)]
enum Asker {
    Drive(usize),
    Server(u32),
}

struct Storm<'c, 'e, E: Engine> {
    cluster: &'c mut Cluster<'e, E>,
    chance: &'c mut Chance,
    weather: Weather,
    ground: Ground,
    unbegun: Vec<u32>,
    sent: Vec<Sent>,
}

/// Most drives of a storm.
const DRIVES: usize = 14;

/// A storm on one or two shards.
pub fn rage<E: Engine>(cluster: &mut Cluster<E>, chance: &mut Chance) {
    let weather = Weather::by_chance(chance);
    let shards = chance.between(1, 2);
    let ground = Ground {
        shards: work::some_shards(chance, shards),
        keys: chance.between(1, 2),
        most_pieces: chance.between(1, 4),
        reads: 20,
    };
    let many = chance.between(2, 5) as usize;
    let unbegun = work::numbers(chance, many);
    let steps = weather.steps;
    let mut storm = Storm { cluster, chance, weather, ground, unbegun, sent: Vec::new() };
    for _ in 0..steps {
        if storm.cluster.fault.is_some() {
            return;
        }
        storm.step();
    }
}

impl<E: Engine> Storm<'_, '_, E> {
    fn step(&mut self) {
        let w = &self.weather;
        let acts: [(u32, fn(&mut Self)); 9] = [
            (w.deliver, Self::deliver),
            (w.send, Self::send),
            (w.move_on, Self::move_on),
            (w.again, Self::again),
            (w.recover, Self::recover),
            (w.vanish, Self::vanish),
            (w.run, Self::run),
            (w.inquire, Self::inquire),
            (w.begin, Self::begin),
        ];
        let mut left = self.chance.below(acts.iter().map(|(weight, _)| weight).sum());
        for (weight, act) in acts {
            if left < weight {
                return act(self);
            }
            left -= weight;
        }
    }

    /// A drive at work, by chance.
    fn some_drive(&mut self) -> Option<usize> {
        let live = self.cluster.live();
        (!live.is_empty()).then(|| self.chance.pick(&live))
    }

    fn begin(&mut self) {
        if let Some(t) = self.unbegun.pop() {
            let pieces = work::pieces(self.chance, &self.ground);
            let slot = self.cluster.begin(t, pieces);
            self.send_from(slot);
        }
    }

    fn send(&mut self) {
        if let Some(slot) = self.some_drive() {
            self.send_from(slot);
        }
    }

    fn send_from(&mut self, slot: usize) {
        if let Some((bytes, servers)) = self.cluster.due(slot) {
            for server in servers {
                self.sent.push(Sent::ToServer { server, bytes: bytes.clone(), answer_to: Asker::Drive(slot) });
            }
            if is_commit(&bytes) && self.chance.percent(50) {
                self.cluster.finish(slot);
            }
        }
    }

    fn deliver(&mut self) {
        if self.sent.is_empty() {
            return;
        }
        let many = self.sent.len() as u32;
        let recent = self.chance.percent(60);
        let place = if recent { many - 1 - self.chance.below(many.min(8)) } else { self.chance.below(many) } as usize;
        let sent = if self.chance.percent(self.weather.repeat) {
            self.cluster.tally.repeated += 1;
            self.sent[place].clone()
        } else {
            self.sent.remove(place)
        };
        let lost = if tells_of_a_commit(&sent) { self.weather.hush } else { self.weather.loss };
        if self.chance.percent(lost) {
            self.cluster.tally.lost += 1;
            return;
        }
        self.arrive(sent);
    }

    fn arrive(&mut self, sent: Sent) {
        match sent {
            Sent::ToDrive { slot, bytes } => {
                self.cluster.hear(slot, &bytes);
                if self.cluster.is_live(slot) && self.chance.percent(self.weather.eager) && self.cluster.move_on(slot) {
                    self.send_from(slot);
                }
            }
            Sent::ToServer { server, bytes, answer_to } => {
                let astray = self.chance.percent(1);
                let server = if astray { self.chance.below(SERVERS) } else { server };
                if let Some(answer) = self.cluster.take(server, &bytes) {
                    self.answer(answer, answer_to);
                }
            }
        }
    }

    /// A reply for a drive is sent to it; a Done is sent to the server that inquired. The others are for hosts.
    fn answer(&mut self, bytes: Vec<u8>, to: Asker) {
        let code = codec::decode(&bytes).map(|message| message.code());
        match (to, code) {
            (Asker::Drive(slot), Ok(16 | 17 | 19 | 20 | 21)) => self.sent.push(Sent::ToDrive { slot, bytes }),
            (Asker::Server(server), Ok(20)) => {
                self.sent.push(Sent::ToServer { server, bytes, answer_to: Asker::Server(server) })
            }
            _ => {}
        }
    }

    fn move_on(&mut self) {
        if let Some(slot) = self.some_drive() {
            if self.cluster.move_on(slot) {
                self.send_from(slot);
            }
        }
    }

    fn again(&mut self) {
        if let Some(slot) = self.some_drive() {
            self.cluster.again(slot);
            self.send_from(slot);
        }
    }

    fn recover(&mut self) {
        let begun: Vec<u32> = self.cluster.transactions().keys().copied().collect();
        if begun.is_empty() || self.cluster.live().len() >= DRIVES {
            return;
        }
        let t = self.chance.pick(&begun);
        let coordinator = self.chance.below(COORDINATORS);
        let known = self.chance.percent(60);
        let floor = if known { self.cluster.highest_ballot(t) } else { 0 };
        let slot = self.cluster.recover(coordinator, t, floor);
        self.send_from(slot);
    }

    fn vanish(&mut self) {
        if let Some(slot) = self.some_drive() {
            self.cluster.vanish(slot);
        }
    }

    /// A server of this ground, by chance.
    fn some_server(&mut self) -> u32 {
        let shard = self.chance.pick(&self.ground.shards);
        servers_of(shard).start + self.chance.below(3)
    }

    /// A server's host is started up anew.
    fn run(&mut self) {
        let server = self.some_server();
        let until_0 = self.chance.percent(30);
        self.cluster.run(server, until_0);
    }

    fn inquire(&mut self) {
        let server = if self.chance.percent(10) { self.chance.below(SERVERS) } else { self.some_server() };
        let wanted = self.cluster.wanted(server);
        let begun: Vec<u32> = self.cluster.transactions().keys().copied().collect();
        let asked: Vec<(u32, u32)> = match wanted.all() {
            0 if begun.is_empty() => Vec::new(),
            0 => vec![(self.chance.pick(&self.ground.shards), self.chance.pick(&begun))],
            _ => (0..SHARDS).flat_map(|k| numbers_in(wanted.word(k)).map(move |t| (k, t))).collect(),
        };
        for (shard, t) in asked {
            self.cluster.tally.inquiries += 1;
            let bytes = codec::bytes_of(&Message::Inquire { t }).expect("an Inquire encodes");
            let asked = servers_of(shard).start + self.chance.below(3);
            self.sent.push(Sent::ToServer { server: asked, bytes, answer_to: Asker::Server(server) });
        }
    }
}

fn tells_of_a_commit(sent: &Sent) -> bool {
    match sent {
        Sent::ToServer { bytes, .. } => is_commit(bytes),
        Sent::ToDrive { .. } => false,
    }
}

fn is_commit(bytes: &[u8]) -> bool {
    matches!(codec::decode(bytes), Ok(Message::Commit { .. } | Message::Done { .. }))
}
