//! A duel: coordinators take up two or three numbers, always in conflict, one after the other. Each exchange reaches some servers and not others and breaks off anywhere; hardly anyone hears of a Commit, so the numbers stay in dispute.

use crate::cluster::Cluster;
use crate::work::{self, Ground};
use chance::Chance;
use engine::Engine;
use model::cluster::{shard_of, COORDINATORS, SHARDS};
use model::{codec, Message};

struct Duel<'c, 'e, E: Engine> {
    cluster: &'c mut Cluster<'e, E>,
    chance: &'c mut Chance,
    numbers: Vec<u32>,
    /// Everything sent to servers so far: it may arrive again.
    sent: Vec<(u32, Vec<u8>)>,
    /// Of a hundred exchanges, before so many something old arrives again.
    repeat: u32,
    /// Of a hundred Commits, so many are heard.
    heard: u32,
}

pub fn fight<E: Engine>(cluster: &mut Cluster<E>, chance: &mut Chance) {
    let shards = if chance.percent(70) { 1 } else { 2 };
    let ground = Ground { shards: work::some_shards(chance, shards), keys: 1, most_pieces: shards, reads: 5 };
    let many = chance.between(2, 6) as usize;
    let numbers = work::numbers(chance, many);
    let rounds = chance.between(4, 24);
    let (repeat, heard) = (chance.pick(&[0, 20, 60]), chance.pick(&[0, 0, 10]));
    let mut duel = Duel { cluster, chance, numbers, sent: Vec::new(), repeat, heard };
    duel.begin(&ground);
    for _ in 0..rounds {
        if duel.cluster.fault.is_some() {
            return;
        }
        let slot = duel.take_up();
        duel.press(slot);
    }
}

impl<E: Engine> Duel<'_, '_, E> {
    /// All are begun at once, and what they send gets through to some servers, to each in another order.
    fn begin(&mut self, ground: &Ground) {
        let mut under_way = Vec::new();
        for t in self.numbers.clone() {
            let slot = self.cluster.begin(t, work::pieces(self.chance, ground));
            let (message, servers) = self.cluster.due(slot).unwrap_or_default();
            under_way.extend(servers.into_iter().map(|server| (slot, server, message.clone())));
        }
        self.chance.shuffle(&mut under_way);
        let reach = self.chance.pick(&[50, 67, 90]);
        for (slot, server, message) in under_way {
            if self.chance.percent(reach) {
                self.reach(slot, server, &message);
            }
        }
    }

    /// A drive: an old one, or a recovery.
    fn take_up(&mut self) -> usize {
        let live = self.cluster.live();
        let disputed: Vec<usize> = live.into_iter().filter(|slot| self.is_disputed(*slot)).collect();
        if !disputed.is_empty() && self.chance.percent(40) {
            return self.chance.pick(&disputed);
        }
        let t = self.chance.pick(&self.numbers[..2]);
        let known = self.chance.percent(80);
        let floor = if known { self.cluster.highest_ballot(t) } else { 0 };
        let coordinator = self.chance.below(COORDINATORS);
        self.cluster.recover(coordinator, t, floor)
    }

    /// The first two numbers are those that everyone recovers.
    fn is_disputed(&self, slot: usize) -> bool {
        self.cluster.carried(slot).map_or(false, |t| self.numbers[..2].contains(&t))
    }

    /// Exchanges, one for each phase, until one doesn't get the drive any further.
    fn press(&mut self, slot: usize) {
        let mut last = Vec::new();
        loop {
            if self.chance.percent(self.repeat) {
                self.something_old();
            }
            let (message, servers) = match self.cluster.due(slot) {
                Some(sending) => sending,
                None => return,
            };
            let stuck = message == last && self.chance.percent(80);
            if stuck || self.chance.percent(8) {
                return;
            }
            if let Ok(Message::Commit { .. }) = codec::decode(&message) {
                return self.commit(slot, &message, &servers);
            }
            self.exchange(slot, &message, servers);
            self.cluster.move_on(slot);
            last = message;
        }
    }

    /// The message reaches some servers of each shard, in any order, and most of their answers come back.
    fn exchange(&mut self, slot: usize, message: &[u8], mut servers: Vec<u32>) {
        self.chance.shuffle(&mut servers);
        let accept = matches!(codec::decode(message), Ok(Message::Accept { .. }));
        let reached = if accept { [1, 1, 2, 2, 3] } else { [1, 2, 2, 2, 3] };
        for shard in 0..SHARDS {
            let many = self.chance.pick(&reached);
            let here: Vec<u32> = servers.iter().copied().filter(|server| shard_of(*server) == shard).collect();
            here.iter().take(many).for_each(|server| self.reach(slot, *server, message));
            self.cluster.tally.lost += here.iter().skip(many).count() as u64;
        }
    }

    /// A message reaches a server, and most answers reach the drive.
    fn reach(&mut self, slot: usize, server: u32, message: &[u8]) {
        self.sent.push((server, message.to_vec()));
        if let Some(answer) = self.cluster.take(server, message) {
            if self.chance.percent(95) {
                self.cluster.hear(slot, &answer);
            }
        }
    }

    fn commit(&mut self, slot: usize, message: &[u8], servers: &[u32]) {
        for server in servers {
            if self.chance.percent(self.heard) {
                self.cluster.take(*server, message);
            }
        }
        self.cluster.finish(slot);
    }

    fn something_old(&mut self) {
        if !self.sent.is_empty() {
            let place = self.chance.below(self.sent.len() as u32) as usize;
            let (server, message) = self.sent[place].clone();
            self.cluster.tally.repeated += 1;
            self.cluster.take(server, &message);
        }
    }
}
