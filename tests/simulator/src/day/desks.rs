//! The hosts of the drives: what they send, and when they move on or give up.

use super::{Address, Day, Desk, Event, Letter, Task};
use crate::net::{Time, Trunk, HOUR, MINUTE, SECOND};
use crate::news::Inside;
use crate::work;
use engine::Engine;
use model::cluster::COORDINATORS;
use model::{codec, Message};

/// How often a message is sent before the host moves on, and before it goes on at its next ballot or gives up a Commit.
const PATIENCE: u32 = 2;
const LONG_PATIENCE: u32 = 5;

impl<E: Engine> Day<'_, '_, E> {
    /// Sends the message due if it is another than the last.
    pub(super) fn send_what_is_new(&mut self, coordinator: u32) {
        let slot = self.desks[coordinator as usize].slot;
        let sending = slot.and_then(|slot| self.cluster.due(slot));
        if sending.map_or(false, |(bytes, _)| bytes != self.desks[coordinator as usize].last) {
            self.send(coordinator);
        }
    }

    /// Sends the message due to all that haven't answered a Commit. At its first sending a trunk may be cut when some have it and others don't.
    fn send(&mut self, coordinator: u32) {
        let slot = match self.desks[coordinator as usize].slot {
            Some(slot) => slot,
            None => return,
        };
        let (bytes, servers) = match self.cluster.due(slot) {
            Some(sending) => sending,
            None => return,
        };
        let desk = &mut self.desks[coordinator as usize];
        let is_new = desk.last != bytes;
        if is_new {
            (desk.last, desk.sent) = (bytes.clone(), 0);
            desk.told.clear();
        }
        desk.sent += 1;
        let from = Address::Drive { coordinator, slot };
        let letter = |server: &u32| Letter { from, to: Address::Server(*server), bytes: bytes.clone() };
        let letters = servers.iter().filter(|server| !desk.told.contains(server)).map(letter).collect();
        let arrivals = self.post(letters);
        if self.is_doomed(&bytes) {
            self.break_off(coordinator, bytes, arrivals);
        } else if is_new && self.chance.percent(self.weather.cut) {
            self.cut_inside(coordinator, bytes, arrivals);
        }
    }

    /// Whether this is the Commit of the number that is to be cut half-way.
    fn is_doomed(&self, bytes: &[u8]) -> bool {
        let is_commit = |doomed| matches!(codec::decode(bytes), Ok(Message::Commit { t, .. }) if t == doomed);
        self.doomed.map_or(false, is_commit)
    }

    /// Cuts a Commit half-way, and its coordinator is without power in the same moment. Minutes later another recovers the number.
    fn break_off(&mut self, coordinator: u32, bytes: Vec<u8>, arrivals: Vec<(Time, u32)>) {
        let cut = self.cut_inside(coordinator, bytes, arrivals);
        if let (Some(at), Some(t)) = (cut, self.doomed.take()) {
            self.agenda.add(at, Event::Lose(coordinator));
            self.agenda.add(at + 3 * HOUR, Event::Up(coordinator));
            let another = (coordinator + 1) % COORDINATORS;
            self.agenda.add(at + 5 * MINUTE, Event::Give(another, Task::Recover(t)));
        }
    }

    /// Cuts the trunks to those that haven't got their letter yet, at a moment when others have. Answers when that is.
    fn cut_inside(&mut self, coordinator: u32, message: Vec<u8>, mut arrivals: Vec<(Time, u32)>) -> Option<Time> {
        arrivals.sort_unstable();
        if arrivals.len() < 2 {
            return None;
        }
        let have = self.chance.between(1, arrivals.len() as u32 - 1) as usize;
        let at = arrivals[have - 1].0;
        let stations = |arrived: &[(Time, u32)]| arrived.iter().map(|(_, s)| *s).collect::<Vec<u32>>();
        let (reached, missed) = (stations(&arrivals[..have]), stations(&arrivals[have..]));
        let trunks: Vec<Trunk> = missed.iter().filter(|s| **s != coordinator).map(|s| (coordinator, *s)).collect();
        self.cluster.tally.cuts += 1;
        self.cut_for_a_while(at, trunks, Some(Inside { coordinator, message, reached, missed }));
        Some(at)
    }

    /// A coordinator is given a number to recover only if nobody is at it already.
    pub(super) fn give(&mut self, coordinator: u32, task: Task) {
        let at_it = |desk: &Desk| match task {
            Task::Begin(_) => false,
            Task::Recover(_) => desk.tasks.contains(&task),
        };
        if !self.desks.iter().any(at_it) {
            let desk = &mut self.desks[coordinator as usize];
            desk.tasks.push_back(task);
            if desk.slot.is_none() {
                self.tick(coordinator);
            }
        }
    }

    /// A coordinator looks at its drive: sends again, moves on, goes on at its next ballot, or takes up the next number. It waits longer each time.
    pub(super) fn tick(&mut self, coordinator: u32) {
        if self.trunks.is_down(coordinator) {
            return;
        }
        match self.desks[coordinator as usize].slot {
            Some(slot) => self.press(coordinator, slot),
            None => self.take_up(coordinator),
        }
        let desk = &mut self.desks[coordinator as usize];
        desk.look += 1;
        if desk.slot.is_some() {
            desk.pauses += 1;
            let (look, pause) = (desk.look, SECOND << desk.pauses.min(11));
            let time = self.now + pause + self.moment(2 * SECOND);
            self.agenda.add(time, Event::Tick(coordinator, look));
        }
    }

    fn take_up(&mut self, coordinator: u32) {
        while let Some(task) = self.desks[coordinator as usize].tasks.pop_front() {
            let slot = match task {
                Task::Begin(t) => {
                    let planned = self.planned.get(&t).copied();
                    let pieces = planned.unwrap_or_else(|| work::pieces(self.chance, &self.ground));
                    self.cluster.begin(t, pieces)
                }
                Task::Recover(t) if self.cluster.transactions().contains_key(&t) => {
                    self.cluster.recover(coordinator, t, 0)
                }
                Task::Recover(_) => continue,
            };
            let desk = &mut self.desks[coordinator as usize];
            (desk.slot, desk.pauses) = (Some(slot), 0);
            desk.last.clear();
            return self.send(coordinator);
        }
    }

    fn press(&mut self, coordinator: u32, slot: usize) {
        let sent = self.desks[coordinator as usize].sent;
        let committing = matches!(codec::decode(&self.desks[coordinator as usize].last), Ok(Message::Commit { .. }));
        let everyone = self.cluster.due(slot).map_or(0, |(_, servers)| servers.len());
        let mut told = self.desks[coordinator as usize].told.clone();
        told.sort_unstable();
        told.dedup();
        if committing && (told.len() == everyone || sent > LONG_PATIENCE) {
            self.cluster.finish(slot);
            self.desks[coordinator as usize].slot = None;
            return self.take_up(coordinator);
        }
        let moved = !committing && sent >= PATIENCE && self.cluster.move_on(slot);
        if !committing && !moved && sent >= LONG_PATIENCE {
            self.cluster.again(slot);
        }
        self.send(coordinator);
    }
}
