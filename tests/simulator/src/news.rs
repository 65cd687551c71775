//! What one who watches a history wants to know: less than the story, and not yet in words.

use crate::net::Trunk;
use engine::text;
use model::Pieces;
use std::fmt;

#[derive(Clone, Debug, PartialEq)]
pub enum News {
    Begun {
        coordinator: u32,
        t: u32,
        pieces: Pieces,
    },
    Recovered {
        coordinator: u32,
        t: u32,
        floor: u32,
    },
    Vanished {
        coordinator: u32,
        t: u32,
    },
    /// A server took a Commit or a Done of a number and ran so many, the last of its log; or none, and the number waits.
    Committed {
        server: u32,
        t: u32,
        many: u32,
        log: Vec<u32>,
    },
    /// A station was told of a committed number by another that it asked.
    Learned {
        server: u32,
        t: u32,
    },
    /// Trunks are cut, and if it is inside an exchange, when some have its message and others have not.
    Cut {
        trunks: Vec<Trunk>,
        inside: Option<Inside>,
    },
    Mended(Vec<Trunk>),
    Down(u32),
    Up(u32),
}

/// Where an exchange was cut: a coordinator's message, and who has it.
#[derive(Clone, Debug, PartialEq)]
pub struct Inside {
    pub coordinator: u32,
    pub message: Vec<u8>,
    pub reached: Vec<u32>,
    pub missed: Vec<u32>,
}

/// As the story tells it.
impl fmt::Display for News {
    fn fmt(&self, out: &mut fmt::Formatter) -> fmt::Result {
        match self {
            News::Begun { coordinator, t, pieces } => {
                write!(out, "coordinator {coordinator} starts T{t} {}", text::pieces(pieces))
            }
            News::Recovered { coordinator, t, floor } => {
                write!(out, "coordinator {coordinator} recovers T{t} above {floor}")
            }
            News::Vanished { coordinator, t } => {
                write!(out, "the drive of coordinator {coordinator} for T{t} vanishes")
            }
            News::Committed { server, t, many, log } => {
                write!(out, "server {server} has T{t} committed, {many} ran: log {}", text::numbers(log))
            }
            News::Learned { server, t } => write!(out, "server {server} is told of T{t}"),
            News::Cut { trunks, .. } => write!(out, "trunks are cut: {}", trunk_list(trunks)),
            News::Mended(trunks) => write!(out, "trunks are mended: {}", trunk_list(trunks)),
            News::Down(station) => write!(out, "station {station} is down"),
            News::Up(station) => write!(out, "station {station} is up"),
        }
    }
}

fn trunk_list(trunks: &[Trunk]) -> String {
    trunks.iter().map(|(a, b)| format!("{a}-{b}")).collect::<Vec<_>>().join(" ")
}
