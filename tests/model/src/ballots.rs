//! Ballots: 0 is the origin's, the others are for recovery.

use crate::cluster::{origin, COORDINATORS};
use crate::refusal::{refuse_if, Refusal};
use crate::sets::Set;

/// The first recovery ballot.
pub const FIRST: u32 = 8;
/// From one ballot of a coordinator to its next.
pub const STEP: u32 = 8;
/// The last ballot.
pub const LAST: u32 = 65_535;

/// A ballot with the set accepted at it.
#[derive(Clone, Copy, Debug, PartialEq, Eq)]
pub struct Vote {
    pub ballot: u32,
    pub set: Set,
}

/// Whether a number may stand where a ballot or promise stands: not 1 to 7, not above the last.
pub fn valid(ballot: u32) -> bool {
    ballot == 0 || (FIRST..=LAST).contains(&ballot)
}

/// Whether a coordinator may use a ballot for a number: 0 if it is the origin, else a recovery ballot that leaves the coordinator as its remainder.
pub fn may_use(coordinator: u32, t: u32, ballot: u32) -> bool {
    if ballot == 0 {
        coordinator == origin(t)
    } else {
        valid(ballot) && ballot % STEP == coordinator
    }
}

/// The smallest recovery ballot of a coordinator that is greater than `above`, which may be any number.
pub fn next(coordinator: u32, above: u32) -> Result<u32, Refusal> {
    refuse_if(coordinator >= COORDINATORS, Refusal::OutOfRange)?;
    let first = FIRST + coordinator;
    if above < first {
        return Ok(first);
    }
    refuse_if(above >= LAST, Refusal::NoNextBallot)?;
    let steps = (above - first) / STEP + 1;
    let ballot = first + STEP * steps;
    refuse_if(ballot > LAST, Refusal::NoNextBallot)?;
    Ok(ballot)
}
