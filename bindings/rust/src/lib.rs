//! One server and one coordinator drive of the Janus protocol, and the XDR codec between them.
//!
//! The code behind this crate is the archive `libstation.a`, whose functions are proved to meet their contracts. A host program owns
//! sockets, clocks and disks; it delivers messages as bytes, persists what it is told to persist and says when to move on.
//! docs/HOST.md numbers its duties.
//!
//! | Here | Is |
//! |---|---|
//! | [`Server`] | a server of one shard: it takes messages, runs what is committed and answers |
//! | [`Drive`] | what carries one transaction for one coordinator |
//! | [`Message`] | what travels between them, and its bytes |
//! | [`Refusal`] | why a call was refused; nothing was changed then |
//! | [`layout`], [`raw`] | the structs of `include/drobulets.h`, and the archive's functions over them |
//!
//! An exchange over two shards: spare part 3 goes from shard 0 to shard 1, at all six servers.
//!
//! ```
//! use drobulets::{Drive, Message, Phase, Piece, Refusal, Server, Value};
//!
//! fn main() -> Result<(), Refusal> {
//!     let mut servers = (0..6).map(Server::fresh).collect::<Result<Vec<Server>, Refusal>>()?;
//!     let mut drive = Drive::start(0, 8, &[Piece::add(0, 3, -1), Piece::add(1, 3, 1)])?;
//!     while drive.phase() != Phase::Commit {
//!         let due = drive.due()?; // a host persists the drive before it sends this
//!         for server in due.servers {
//!             let reply = servers[server as usize].take(&due.bytes)?; // and the server before this leaves it
//!             match drive.take(&reply) {
//!                 Ok(()) | Err(Refusal::Misplaced) => {} // a reply that comes when all is decided is dropped
//!                 Err(refusal) => return Err(refusal),
//!             }
//!         }
//!     }
//!     let commit = drive.due()?;
//!     for server in commit.servers {
//!         let reply = servers[server as usize].take(&commit.bytes)?; // committed and run
//!         assert_eq!(Message::decode(&reply)?, Message::CommitOk { t: 8, server, ran: 1 });
//!     }
//!     for server in &servers {
//!         let value = if server.shard() == 0 { -1 } else { 1 };
//!         assert_eq!(server.counter(3), Some(Value { value, kept: false })); // a kept figure would be no total
//!     }
//!     Ok(())
//! }
//! ```
//!
//! Every method is safe, on any bytes and numbers. A call needs [`STACK`] bytes of stack, which every thread of Rust's has unless it
//! was given less. The archive touches its stack page by page, so a stack that is too small ends the process at its guard page, as
//! in any Rust program.
//!
//! The archive is looked for in the folder that the environment variable `DROBULETS_LIB` names when this crate is built, else in the
//! repository's `target/staticlib`. It is for x86-64 Linux.

#![deny(unsafe_code)]
#![warn(missing_docs)]

mod cluster;
#[cfg(feature = "archive")]
mod drive;
pub mod layout;
#[cfg(feature = "archive")]
mod message;
mod pieces;
#[cfg(feature = "archive")]
pub mod raw;
mod refusal;
#[cfg(feature = "archive")]
mod server;
#[cfg(feature = "archive")]
mod stored;

pub use cluster::{
    numbers_in, origin, servers_in, servers_of, shard_of, COORDINATORS, KEYS, LONGEST, NUMBERS, PIECES, REPLICAS,
    SERVERS, SHARDS, STACK,
};
#[cfg(feature = "archive")]
pub use drive::{next_ballot, Drive, Due, Phase};
pub use layout::{Piece, Set};
#[cfg(feature = "archive")]
pub use message::{Message, Value, Vote};
pub use refusal::Refusal;
#[cfg(feature = "archive")]
pub use server::Server;

/// The version of this crate, which is the header's: `DROBULETS_VERSION_TEXT`.
pub const VERSION: &str = env!("CARGO_PKG_VERSION");
