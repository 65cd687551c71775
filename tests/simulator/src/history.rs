//! One seed, one history.

use crate::calm::calm_down;
use crate::checks::Fault;
use crate::cluster::Cluster;
use crate::tally::Tally;
use crate::{day, duel, storm};
use chance::Chance;
use engine::Engine;

/// What came of a seed.
pub struct History {
    pub seed: u64,
    pub fault: Option<Fault>,
    pub tally: Tally,
    /// The transcript, if it was asked for.
    pub lines: Vec<String>,
}

/// Plays the history of a seed, of every four a day by the clock, a storm and two duels; then the calm. It ends at the first broken promise.
pub fn play<E: Engine>(engine: &E, seed: u64, told: bool) -> History {
    let mut chance = Chance::of(seed);
    let mut cluster = Cluster::fresh(engine, told);
    match seed % 4 {
        0 => day::pass(&mut cluster, &mut chance),
        1 => storm::rage(&mut cluster, &mut chance),
        _ => duel::fight(&mut cluster, &mut chance),
    }
    cluster.check();
    if cluster.fault.is_none() {
        calm_down(&mut cluster);
    }
    cluster.check();
    History { seed, lines: cluster.story.lines().to_vec(), tally: cluster.tally, fault: cluster.fault }
}
