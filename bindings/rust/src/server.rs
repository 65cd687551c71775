//! A server, owned.

use crate::cluster::{shard_of, KEYS, LONGEST, NUMBERS, PIECES};
use crate::layout::{self, Reading};
use crate::{raw, stored, Message, Refusal, Set, Value};
use std::fmt;

/// A server of one shard. It is always in form, so none of its methods refuses 13.
///
/// A host persists it ([`to_bytes`](Server::to_bytes)) after a call that changed it and before the answer leaves the station: what a
/// Commit ran is then on disk with it.
#[derive(Clone, PartialEq, Eq)]
pub struct Server {
    // Boxed, since 19,856 bytes are much to move.
    state: Box<layout::Server>,
}

impl Server {
    /// How many bytes [`to_bytes`](Server::to_bytes) gives.
    pub const BYTES: usize = std::mem::size_of::<layout::Server>();

    /// A server that has seen nothing. Refuses 1, an id above 11.
    ///
    /// For a new station's server, once: a server that has sent anything must not be made fresh again.
    pub fn fresh(id: u32) -> Result<Server, Refusal> {
        let mut state = Box::<layout::Server>::default();
        Refusal::or(raw::server_fresh(&mut state, id), Server { state })
    }

    /// Takes a message's bytes and gives those of the reply, which goes to whoever asked, once this server is persisted.
    ///
    /// A Commit and a Done run by themselves, until nothing is ready: their CommitOK has the count of what ran. On a refusal nothing
    /// runs. Here T1 comes after T8, and waits for it:
    ///
    /// ```
    /// use drobulets::{Message, Piece, Server, Set};
    ///
    /// let mut server = Server::fresh(0)?;
    /// let after_8 = Set::from([1 << 8, 0, 0, 0]);
    /// let later = Message::Commit { t: 1, pieces: vec![Piece::add(0, 3, 2)], set: after_8 }.encode()?;
    /// let earlier = Message::Commit { t: 8, pieces: vec![Piece::put(0, 3, 5)], set: Set::EMPTY }.encode()?;
    /// let waits = server.take(&later)?;
    /// assert_eq!(Message::decode(&waits)?, Message::CommitOk { t: 1, server: 0, ran: 0 });
    /// let both = server.take(&earlier)?;
    /// assert_eq!(Message::decode(&both)?, Message::CommitOk { t: 8, server: 0, ran: 2 });
    /// assert_eq!(server.log(), [8, 1]);
    /// # Ok::<(), drobulets::Refusal>(())
    /// ```
    pub fn take(&mut self, message: &[u8]) -> Result<Vec<u8>, Refusal> {
        let mut reply = [0; LONGEST];
        let length = self.take_into(message, &mut reply)?;
        Ok(reply[..length].to_vec())
    }

    /// As [`take`](Server::take), with the reply written to the front of the output; no byte behind it is touched. Gives its length.
    /// Refuses 14 too, and then has not taken the message.
    pub fn take_into(&mut self, message: &[u8], output: &mut [u8]) -> Result<usize, Refusal> {
        let answer = raw::server_take(&mut self.state, message, output);
        Refusal::or(answer.refusal, answer.length as usize)
    }

    /// As [`take`](Server::take), over messages and not over bytes.
    pub fn take_message(&mut self, message: &Message) -> Result<Message, Refusal> {
        self.take(&message.encode()?).and_then(|reply| Message::decode(&reply))
    }

    /// Runs the lowest ready number with its group. Gives how many ran, 0 if none is ready: see [`run_all`](Server::run_all).
    pub fn run(&mut self) -> Result<u32, Refusal> {
        let counted = raw::server_run(&mut self.state);
        Refusal::or(counted.refusal, counted.many)
    }

    /// Runs until nothing is ready: at start-up. Gives how many ran in all.
    ///
    /// A server that was made [fresh](Server::fresh) and took every message by [`take`](Server::take) has nothing ready after any call,
    /// so that this gives 0. One whose bytes came from elsewhere may have.
    pub fn run_all(&mut self) -> Result<u32, Refusal> {
        let counted = raw::server_run_all(&mut self.state);
        Refusal::or(counted.refusal, counted.many)
    }

    /// What committed sets name and is not committed here, shard by shard: the numbers to inquire for.
    pub fn wanted(&self) -> Result<Set, Refusal> {
        let wants = raw::server_wanted(&self.state);
        Refusal::or(wants.refusal, wants.set)
    }

    /// Which server it is.
    pub fn id(&self) -> u32 {
        self.state.id
    }

    /// Its shard.
    pub fn shard(&self) -> u32 {
        shard_of(self.id())
    }

    /// The counter of a key, kept if it is full; none for a key above 15.
    pub fn counter(&self, key: u32) -> Option<Value> {
        reading(raw::server_counter(&self.state, key))
    }

    /// All its counters, by key, kept where they are full.
    pub fn counters(&self) -> [Value; KEYS as usize] {
        self.state.counters.list.map(|counter| Value { value: counter.value, kept: counter.full != 0 })
    }

    /// The numbers that it ran, in order.
    pub fn log(&self) -> Vec<u32> {
        let logged = |place| Some(raw::server_log(&self.state, place)).filter(|entry| entry.some != 0);
        (0..NUMBERS).map_while(logged).map(|entry| entry.number).collect()
    }

    /// Whether it ran a number.
    pub fn has_run(&self, t: u32) -> bool {
        self.log().contains(&t)
    }

    /// A result of a number, in the order of its pieces on this shard; none where it has not run or there is no such place.
    pub fn result(&self, t: u32, place: u32) -> Option<Value> {
        reading(raw::server_result(&self.state, t, place))
    }

    /// The results of a number that has run here. It has none where it has no pieces on this shard.
    pub fn results(&self, t: u32) -> Option<Vec<Value>> {
        let results = || (0..PIECES as u32).map_while(|place| self.result(t, place)).collect();
        self.has_run(t).then(results)
    }

    /// All that it holds, to be read.
    pub fn state(&self) -> &layout::Server {
        &self.state
    }

    /// The bytes that a host persists: those of the header's `drobulets_server`, little-endian, with 0 between the fields. A host in C
    /// that writes the struct as it stands writes the same, but for what is between the fields.
    pub fn to_bytes(&self) -> Vec<u8> {
        stored::to_bytes(&*self.state)
    }

    /// The server of such bytes. Refuses 10, too few; 11, too many; 13, bytes that are of no server in form: the store is damaged, and
    /// the server must stay silent.
    pub fn from_bytes(bytes: &[u8]) -> Result<Server, Refusal> {
        let server = Server { state: stored::from_bytes(bytes)? };
        server.wanted()?;
        Ok(server)
    }
}

/// What was read, if anything was.
fn reading(reading: Reading) -> Option<Value> {
    (reading.some != 0).then_some(Value { value: reading.value, kept: reading.kept != 0 })
}

/// Its id, log and counters.
impl fmt::Debug for Server {
    fn fmt(&self, out: &mut fmt::Formatter) -> fmt::Result {
        let mut out = out.debug_struct("Server");
        out.field("id", &self.id())
            .field("log", &self.log())
            .field("counters", &self.counters())
            .finish_non_exhaustive()
    }
}
