//! The hosts of the servers: they inquire after what is wanted.

use super::{Address, Day, Event, Letter, Task};
use crate::net::SECOND;
use engine::Engine;
use model::cluster::{numbers_in, servers_of, COORDINATORS, SHARDS};
use model::{codec, Message};

/// Looks at a wanted number before a station asks for its recovery.
const LOOKS: u32 = 3;

impl<E: Engine> Day<'_, '_, E> {
    pub(super) fn look_soon(&mut self, station: u32) {
        let place = station as usize;
        if !self.looking[place] && self.cluster.wanted(station).all() != 0 {
            self.looking[place] = true;
            let pause = (10 * SECOND << self.looks[place].min(8)) + self.moment(5 * SECOND);
            self.agenda.add(self.now + pause, Event::Look(station));
        }
    }

    /// A station inquires after what it wants. What stays wanted is given to a coordinator to recover.
    pub(super) fn look(&mut self, station: u32) {
        self.looking[station as usize] = false;
        if self.trunks.is_down(station) {
            return;
        }
        let wanted = self.cluster.wanted(station);
        if wanted.all() == 0 {
            self.looks[station as usize] = 0;
            return;
        }
        self.looks[station as usize] += 1;
        for shard in 0..SHARDS {
            for t in numbers_in(wanted.word(shard)) {
                self.inquire(station, shard, t);
            }
        }
        self.look_soon(station);
    }

    fn inquire(&mut self, station: u32, shard: u32, t: u32) {
        self.cluster.tally.inquiries += 1;
        let bytes = codec::bytes_of(&Message::Inquire { t }).expect("an Inquire encodes");
        let letter =
            |server| Letter { from: Address::Server(station), to: Address::Server(server), bytes: bytes.clone() };
        self.post(servers_of(shard).map(letter).collect());
        if self.looks[station as usize] >= LOOKS {
            let coordinator = self.chance.below(COORDINATORS);
            self.agenda.add(self.now, Event::Give(coordinator, Task::Recover(t)));
        }
    }
}
