//! One door for all that is tested: the model, a model with a planted slip, and the proved library.

#[cfg(feature = "archive")]
pub mod archive;
pub mod image;
pub mod messages;
pub mod plain;
pub mod ran;
pub mod text;

use model::cluster::NUMBERS;
use model::server::Log;
use model::{Pieces, Refusal, Set};

pub use drobulets::layout;
pub use model::codec::LONGEST;
pub use plain::Plain;

/// What is tested unless a test says otherwise: the proved library if it was linked, else the model.
#[cfg(feature = "archive")]
pub type Tested = archive::Archive;
#[cfg(not(feature = "archive"))]
pub type Tested = Plain;

/// A server and a drive of document 01, over messages as bytes. A refusal changes neither the state nor the buffer that was lent.
pub trait Engine {
    type Server: Clone + PartialEq;
    type Drive: Clone;

    /// A server that has seen nothing.
    fn fresh(&self, id: u32) -> Result<Self::Server, Refusal>;
    /// Decodes a message, takes it, and encodes the answer to the front of `answer`. Gives the answer's length. A Commit or a Done is committed and runs until 0.
    fn take(&self, server: &mut Self::Server, message: &[u8], answer: &mut [u8]) -> Result<usize, Refusal>;
    /// One run alone, as at start-up; how many ran.
    fn run(&self, server: &mut Self::Server) -> Result<u32, Refusal>;
    /// Runs until 0; how many ran in all.
    fn run_all(&self, server: &mut Self::Server) -> Result<u32, Refusal>;
    fn wanted(&self, server: &Self::Server) -> Result<Set, Refusal>;

    /// A drive that was never started.
    fn blank(&self) -> Self::Drive;
    fn start(&self, drive: &mut Self::Drive, coordinator: u32, t: u32, pieces: &Pieces) -> Result<(), Refusal>;
    fn recover(
        &self,
        drive: &mut Self::Drive,
        coordinator: u32,
        t: u32,
        pieces: &Pieces,
        floor: u32,
    ) -> Result<(), Refusal>;
    fn again(&self, drive: &mut Self::Drive) -> Result<(), Refusal>;
    fn move_on(&self, drive: &mut Self::Drive) -> Result<(), Refusal>;
    fn reply(&self, drive: &mut Self::Drive, message: &[u8]) -> Result<(), Refusal>;
    /// Encodes the message due to the front of `message`.
    fn due(&self, drive: &Self::Drive, message: &mut [u8]) -> Result<Due, Refusal>;

    /// The whole state, to be read.
    fn see_server(&self, server: &Self::Server) -> model::Server;
    /// The little of a server's state that says what is closed and what has run.
    fn see_ledger(&self, server: &Self::Server) -> Ledger;
    fn see_drive(&self, drive: &Self::Drive) -> model::Drive;
}

/// The committed set of each number, and the log.
pub struct Ledger {
    pub committed: [Option<Set>; NUMBERS as usize],
    pub log: Log,
}

impl Ledger {
    pub fn of(server: &model::Server) -> Ledger {
        Ledger { committed: std::array::from_fn(|t| server.records[t].committed), log: server.log }
    }
}

/// The length of the message due, and the servers that it is for: bit s for server s.
#[derive(Clone, Copy, Debug, PartialEq, Eq)]
pub struct Due {
    pub length: usize,
    pub servers: u32,
}

/// An engine that can be lent any state whatever, in form or not, and gives it back.
pub trait Lent: Engine {
    fn lend_server(&self, image: &layout::Server) -> Self::Server;
    fn lend_drive(&self, image: &layout::Drive) -> Self::Drive;
    fn server_image(&self, server: &Self::Server) -> layout::Server;
    fn drive_image(&self, drive: &Self::Drive) -> layout::Drive;
}

/// The answer of `take` in a buffer of its own.
pub fn ask<E: Engine>(engine: &E, server: &mut E::Server, message: &[u8]) -> Result<Vec<u8>, Refusal> {
    let mut answer = [0; LONGEST];
    let length = engine.take(server, message, &mut answer)?;
    Ok(answer[..length].to_vec())
}

/// The message due in a buffer of its own, and the servers that it is for.
pub fn due<E: Engine>(engine: &E, drive: &E::Drive) -> Result<(Vec<u8>, u32), Refusal> {
    let mut message = [0; LONGEST];
    let due = engine.due(drive, &mut message)?;
    Ok((message[..due.length].to_vec(), due.servers))
}
