//! Letters on their way: delays, losses, repeats, and what becomes of one that arrives.

use super::{Address, Day, Event, Letter};
use crate::net::{Time, MINUTE};
use crate::news::News;
use engine::Engine;
use model::{codec, Message};

impl<E: Engine> Day<'_, '_, E> {
    /// Sends letters. Answers when each arrives, if none is lost.
    pub(super) fn post(&mut self, letters: Vec<Letter>) -> Vec<(Time, u32)> {
        let mut arrivals = Vec::new();
        for letter in letters {
            let station = letter.to.station();
            let copies = 1 + u32::from(self.chance.percent(self.weather.repeat));
            self.cluster.tally.repeated += u64::from(copies - 1);
            for _ in 0..copies {
                let time = self.now + self.delay();
                if self.chance.percent(self.weather.loss) {
                    self.lose(&letter, "on its way");
                } else {
                    arrivals.push((time, station));
                    self.agenda.add(time, Event::Arrive(letter.clone()));
                }
            }
        }
        arrivals
    }

    fn delay(&mut self) -> Time {
        let usual = 5 + self.moment(400);
        if self.chance.percent(self.weather.late) {
            usual + self.moment(20 * MINUTE)
        } else {
            usual
        }
    }

    fn lose(&mut self, letter: &Letter, where_lost: &str) {
        self.cluster.tally.lost += 1;
        let (from, to) = (letter.from.station(), letter.to.station());
        let bytes = &letter.bytes;
        self.cluster.story.tell(|| format!("lost {where_lost} from {from} to {to}: {}", engine::text::bytes(bytes)));
    }

    pub(super) fn arrive(&mut self, letter: Letter) {
        if !self.trunks.open(letter.from.station(), letter.to.station()) {
            return self.lose(&letter, "at a cut trunk or a station that is down");
        }
        match letter.to {
            Address::Server(server) => self.arrive_at_server(server, letter),
            Address::Drive { coordinator, slot } => self.arrive_at_drive(coordinator, slot, &letter.bytes),
        }
    }

    /// A server takes a message, and its answer goes back. After a Commit it may want something.
    fn arrive_at_server(&mut self, server: u32, letter: Letter) {
        let message = codec::decode(&letter.bytes);
        if let Ok(Message::NotYet { .. } | Message::CommitOk { .. }) = message {
            return;
        }
        let answer = self.cluster.take(server, &letter.bytes);
        if let Ok(Message::Done { t, .. }) = message {
            self.cluster.report(News::Learned { server, t });
        }
        if let Ok(Message::Commit { .. } | Message::Done { .. }) = message {
            self.look_soon(server);
        }
        if let Some(bytes) = answer {
            self.post(vec![Letter { from: letter.to, to: letter.from, bytes }]);
        }
    }

    fn arrive_at_drive(&mut self, coordinator: u32, slot: usize, bytes: &[u8]) {
        let desk = &mut self.desks[coordinator as usize];
        match codec::decode(bytes) {
            Ok(Message::CommitOk { server, .. }) if desk.slot == Some(slot) => desk.told.push(server),
            Ok(Message::CommitOk { .. } | Message::NotYet { .. } | Message::Results { .. }) => {}
            _ => {
                self.cluster.hear(slot, bytes);
                self.send_what_is_new(coordinator);
            }
        }
    }
}
