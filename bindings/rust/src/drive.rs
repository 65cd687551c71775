//! A drive, owned.

use crate::cluster::LONGEST;
use crate::layout::{self, Piece, Set};
use crate::{raw, servers_in, stored, Message, Refusal};

/// What carries one transaction for one coordinator. It is always in form, so none of its methods refuses 13.
///
/// A host persists it ([`to_bytes`](Drive::to_bytes)) before it sends what is due: each ballot of a number is taken once, and a drive
/// that goes on after a restart must be the one before the last sending.
#[derive(Clone, Debug, PartialEq, Eq)]
pub struct Drive {
    state: layout::Drive,
}

/// What a drive is at.
#[derive(Clone, Copy, Debug, PartialEq, Eq, PartialOrd, Ord, Hash)]
pub enum Phase {
    /// 0: it asks what arrived and what is accepted.
    Prepare,
    /// 1: it asks what came before.
    PreAccept,
    /// 2: it has a set accepted.
    Accept,
    /// 3: it is decided, and the Commit is due.
    Commit,
}

/// What a drive has to send.
#[derive(Clone, Debug, PartialEq, Eq)]
pub struct Due {
    /// The message.
    pub bytes: Vec<u8>,
    /// To whom: every server of the number's shards.
    pub servers: Vec<u32>,
}

impl Drive {
    /// How many bytes [`to_bytes`](Drive::to_bytes) gives.
    pub const BYTES: usize = std::mem::size_of::<layout::Drive>();

    /// Begins at ballot 0, for the number's [origin](crate::origin) only. Refuses 12, more than eight pieces; 1; 2.
    pub fn start(coordinator: u32, t: u32, pieces: &[Piece]) -> Result<Drive, Refusal> {
        let mut state = layout::Drive::default();
        Refusal::or(raw::drive_start(&mut state, coordinator, t, pieces.into()), Drive { state })
    }

    /// Begins at the coordinator's next ballot above the floor: the highest ballot of the number that the host knows of, or 0.
    /// Refuses 12, more than eight pieces; 1; 2; 9.
    pub fn recover(coordinator: u32, t: u32, pieces: &[Piece], floor: u32) -> Result<Drive, Refusal> {
        let mut state = layout::Drive::default();
        Refusal::or(raw::drive_recover(&mut state, coordinator, t, pieces.into(), floor), Drive { state })
    }

    /// Begins again at the next ballot above its own and every promise seen. Refuses 8, 9.
    pub fn again(&mut self) -> Result<(), Refusal> {
        Refusal::or(raw::drive_again(&mut self.state), ())
    }

    /// Decides with two answers in each shard, when the others do not come. Refuses 8, 7.
    pub fn move_on(&mut self) -> Result<(), Refusal> {
        Refusal::or(raw::drive_move_on(&mut self.state), ())
    }

    /// Takes a reply's bytes. One that it does not wait for is refused by 8: drop it. A CommitOK is the host's, and refused by 12.
    pub fn take(&mut self, reply: &[u8]) -> Result<(), Refusal> {
        Refusal::or(raw::drive_take(&mut self.state, reply), ())
    }

    /// As [`take`](Drive::take), over a message and not over bytes.
    pub fn take_message(&mut self, reply: &Message) -> Result<(), Refusal> {
        self.take(&reply.encode()?)
    }

    /// The message due, and to whom. It depends on the drive alone; sending it again, late or never is always allowed.
    pub fn due(&self) -> Result<Due, Refusal> {
        let mut output = [0; LONGEST];
        let (length, servers) = self.due_into(&mut output)?;
        Ok(Due { bytes: output[..length].to_vec(), servers: servers_in(servers).collect() })
    }

    /// As [`due`](Drive::due), with the message written to the front of the output; no byte behind it is touched. Gives its length and
    /// the servers as a [mask](servers_in). Refuses 14.
    pub fn due_into(&self, output: &mut [u8]) -> Result<(usize, u32), Refusal> {
        let due = raw::drive_due(&self.state, output);
        Refusal::or(due.refusal, (due.length as usize, due.servers))
    }

    /// The number that it carries.
    pub fn t(&self) -> u32 {
        self.state.t
    }

    /// For whom it carries it.
    pub fn coordinator(&self) -> u32 {
        self.state.coordinator
    }

    /// Its ballot.
    pub fn ballot(&self) -> u32 {
        self.state.ballot
    }

    /// What it is at.
    pub fn phase(&self) -> Phase {
        match self.state.phase {
            0 => Phase::Prepare,
            1 => Phase::PreAccept,
            2 => Phase::Accept,
            _ => Phase::Commit, // a drive in form has no phase above 3
        }
    }

    /// The pieces of its number.
    pub fn pieces(&self) -> &[Piece] {
        self.state.pieces.entries()
    }

    /// The servers whose answers are counted in this phase.
    pub fn answered(&self) -> Vec<u32> {
        (0..).zip(&self.state.answers).filter(|(_, slot)| slot.counted != 0).map(|(server, _)| server).collect()
    }

    /// The set that it has accepted or committed, in the last two phases.
    pub fn chosen(&self) -> Option<Set> {
        Some(self.state.chosen).filter(|chosen| chosen.some != 0).map(|chosen| chosen.set)
    }

    /// The highest promise that it saw in a Behind, 0 if none.
    pub fn seen(&self) -> u32 {
        self.state.seen
    }

    /// All that it holds, to be read.
    pub fn state(&self) -> &layout::Drive {
        &self.state
    }

    /// The bytes that a host persists: those of the header's `drobulets_drive`, little-endian, with 0 between the fields.
    pub fn to_bytes(&self) -> Vec<u8> {
        stored::to_bytes(&self.state)
    }

    /// The drive of such bytes. Refuses 10, too few; 11, too many; 13, bytes that are of no drive in form.
    pub fn from_bytes(bytes: &[u8]) -> Result<Drive, Refusal> {
        let drive = Drive { state: *stored::from_bytes(bytes)? };
        drive.due()?;
        Ok(drive)
    }
}

/// The smallest ballot above n that coordinator c recovers with. Refuses 1, 9.
///
/// ```
/// use drobulets::{next_ballot, Refusal};
///
/// assert_eq!(next_ballot(3, 8), Ok(11));
/// assert_eq!(next_ballot(2, 65_530), Err(Refusal::NoBallot));
/// ```
pub fn next_ballot(c: u32, n: u32) -> Result<u32, Refusal> {
    let next = raw::next_ballot(c, n);
    Refusal::or(next.refusal, next.ballot)
}
