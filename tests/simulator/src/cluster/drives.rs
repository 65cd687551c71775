//! The steps of drives.

use super::{Cluster, Live};
use crate::news::News;
use engine::{due, text, Engine};
use model::cluster::{origin, SERVERS};
use model::{codec, Message, Pieces, Refusal};

impl<E: Engine> Cluster<'_, E> {
    /// The origin starts a number. Answers the place of its drive.
    pub fn begin(&mut self, t: u32, pieces: Pieces) -> usize {
        self.transactions.insert(t, pieces);
        let coordinator = origin(t);
        self.report(News::Begun { coordinator, t, pieces });
        let mut drive = self.engine.blank();
        let started = self.engine.start(&mut drive, coordinator, t, &pieces);
        self.lawful(started, &[], "Start");
        self.taken.insert((coordinator, t), 0);
        self.place(coordinator, t, drive)
    }

    /// The highest ballot that anyone took for a number.
    pub fn highest_ballot(&self, t: u32) -> u32 {
        self.taken.iter().filter(|((_, of), _)| *of == t).map(|(_, ballot)| *ballot).max().unwrap_or(0)
    }

    /// A coordinator recovers a number that was begun, above a floor and every ballot that it took for it. An older drive of its own for the number ends.
    pub fn recover(&mut self, coordinator: u32, t: u32, floor: u32) -> usize {
        for slot in 0..self.live.len() {
            let own = self.live[slot].as_ref().map_or(false, |live| (live.coordinator, live.t) == (coordinator, t));
            if own {
                self.vanish(slot);
            }
        }
        let floor = self.taken.get(&(coordinator, t)).copied().unwrap_or(0).max(floor);
        self.report(News::Recovered { coordinator, t, floor });
        self.tally.recovered += 1;
        let mut drive = self.engine.blank();
        let recovered = self.engine.recover(&mut drive, coordinator, t, &self.pieces(t), floor);
        self.lawful(recovered, &[], "Recover");
        let slot = self.place(coordinator, t, drive);
        self.note_ballot(slot);
        slot
    }

    fn place(&mut self, coordinator: u32, t: u32, drive: E::Drive) -> usize {
        self.live.push(Some(Live { coordinator, t, drive }));
        self.live.len() - 1
    }

    /// Notes the ballot of a drive as taken. The message due says it.
    fn note_ballot(&mut self, slot: usize) {
        if let Some((message, _)) = self.due(slot) {
            let ballot = codec::decode(&message).ok().and_then(|message| message.ballot());
            let live = self.live[slot].as_ref().expect("a drive that has something due");
            self.taken.insert((live.coordinator, live.t), ballot.unwrap_or(0));
        }
    }

    /// A drive ends where it stands, and nothing is left of it.
    pub fn vanish(&mut self, slot: usize) {
        if let Some(live) = self.live[slot].take() {
            self.tally.vanished += 1;
            self.report(News::Vanished { coordinator: live.coordinator, t: live.t });
        }
    }

    /// A drive that has nothing more to do.
    pub fn finish(&mut self, slot: usize) {
        self.live[slot] = None;
    }

    /// The message due and the servers that it is for.
    pub fn due(&mut self, slot: usize) -> Option<(Vec<u8>, Vec<u32>)> {
        let sending = due(self.engine, &self.live[slot].as_ref()?.drive);
        let (message, servers) = self.lawful(sending, &[], "due")?;
        self.watch_committed(&message);
        Some((message, (0..SERVERS).filter(|server| servers >> server & 1 == 1).collect()))
    }

    /// A drive goes on at its next ballot.
    pub fn again(&mut self, slot: usize) {
        let engine = self.engine;
        let moved =
            self.move_drive(slot, || "goes on at its next ballot".to_string(), None, |drive| engine.again(drive));
        if self.lawful(moved, &[Refusal::NotAwaited], "Again").is_some() {
            self.tally.again += 1;
            self.note_ballot(slot);
        }
    }

    /// The host says "move on". Answers whether the drive could.
    pub fn move_on(&mut self, slot: usize) -> bool {
        let engine = self.engine;
        let moved = self.move_drive(slot, || "moves on".to_string(), None, |drive| engine.move_on(drive));
        self.lawful(moved, &[Refusal::CannotDecide, Refusal::NotAwaited], "move on").is_some()
    }

    /// A drive takes a reply. Late ones are refused by 8.
    pub fn hear(&mut self, slot: usize, bytes: &[u8]) {
        if !self.is_live(slot) {
            return;
        }
        let engine = self.engine;
        let reply = codec::decode(bytes).ok();
        let moved = self.move_drive(
            slot,
            || format!("hears {}", text::bytes(bytes)),
            reply.as_ref(),
            |drive| engine.reply(drive, bytes),
        );
        self.tally.heard += 1;
        self.lawful(moved, &[Refusal::NotAwaited], "a reply");
    }

    /// One event of a drive, told and counted.
    fn move_drive(
        &mut self,
        slot: usize,
        what: impl Fn() -> String,
        reply: Option<&Message>,
        event: impl FnOnce(&mut E::Drive) -> Result<(), Refusal>,
    ) -> Result<(), Refusal> {
        let live = match self.live[slot].as_mut() {
            Some(live) => live,
            None => return Err(Refusal::NotAwaited),
        };
        let before = self.engine.see_drive(&live.drive);
        let moved = event(&mut live.drive);
        let after = self.engine.see_drive(&live.drive);
        if moved.is_ok() {
            self.tally.note_drive(&before, &after, reply);
        }
        let coordinator = live.coordinator;
        self.story.tell(|| {
            let now = match moved {
                Ok(()) => text::drive(&after),
                Err(refusal) => format!("refused {}", refusal.number()),
            };
            format!("coordinator {coordinator}, T{}, {}: {now}", before.t, what())
        });
        moved
    }
}
