//! Document 01, as changed by requests 1 and 2 of document 02, in plain Rust: one server, one coordinator drive, and the codec between them.
//!
//! Each module has one section of the document, in its order of sentences:
//!
//! | Section | Modules |
//! |---|---|
//! | The cluster | `cluster`, `ballots`, `pieces`, `counters`, `sets` |
//! | Held at a server | `server` |
//! | Messages | `message`, `codec` |
//! | What a server does | `server::step` |
//! | The drive | `drive`, `drive::events`, `drive::decide` |
//! | Running | `run` |
//! | Refusal numbers | `refusal`; the order at a server in `server::judge`, at a drive in `drive::judge` |
//! | State form | `server::form`, `drive::form` |

pub mod ballots;
pub mod cluster;
pub mod codec;
pub mod counters;
pub mod drive;
pub mod message;
pub mod pieces;
pub mod refusal;
pub mod run;
pub mod server;
pub mod sets;

pub use ballots::Vote;
pub use counters::{Counter, Value, Values};
pub use drive::Drive;
pub use message::Message;
pub use pieces::{Piece, Pieces};
pub use refusal::Refusal;
pub use server::Server;
pub use sets::Set;
