//! Whole histories of twelve servers and their coordinators, by chance from a seed, and what must hold of each.
//!
//! | Module | Has |
//! |---|---|
//! | `cluster` | the servers and drives of a history and each step that can happen to them |
//! | `storm` | a history in which anything sent may arrive at any time, any number of times, or never |
//! | `duel` | a history of exchanges that break off halfway, one after the other, over a few numbers in dispute |
//! | `day` | a history by the clock: delays, losses, trunks cut inside an exchange, stations down for hours |
//! | `calm` | what follows each: all trunks up, every number driven to its end |
//! | `checks` | agreement, one order, equal counters and results, the count of what ran, and that all that is closed has run |
//! | `history` | one seed, one history |
//! | `news` | what one who watches a history wants to know; the program `demo` shows it |

pub mod calm;
pub mod checks;
pub mod cluster;
pub mod day;
pub mod duel;
pub mod history;
pub mod net;
pub mod news;
pub mod scenario;
pub mod storm;
pub mod story;
pub mod tally;
pub mod work;
