//! Tables of cases that are run: each row through the library, if it is linked, and through the model. README.md has their format.
//!
//! | Module | Has |
//! |---|---|
//! | `words`, `parts` | a text read word by word; words, sets, pieces and results |
//! | `message`, `bytes` | the table of document 01's messages, as text and as bytes |
//! | `state`, `server`, `drive`, `fields` | lent states by their clauses, and any field by its name |
//! | `call`, `answer` | the columns CALL and ANSWER |
//! | `table` | a file, row by row |
//! | `through`, `library`, `modelled` | a call through the library or the model |
//! | `judge`, `spoil` | what a row wants against what came, and what the runner must tell |

pub mod answer;
pub mod bytes;
pub mod call;
pub mod drive;
pub mod fields;
pub mod judge;
#[cfg(feature = "archive")]
pub mod library;
pub mod message;
pub mod modelled;
pub mod parts;
pub mod server;
pub mod spoil;
pub mod state;
pub mod table;
pub mod through;
pub mod words;
