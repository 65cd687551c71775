//! Whole transactions in memory: a drive and the six servers of its two shards, from the start to the Commit, which runs.

use crate::states::pieces;
use engine::{Engine, LONGEST};
use std::time::{Duration, Instant};

/// Seconds for each eight numbers in turn, the best of some tries, and the servers after.
pub type Blocks = ([f64; 8], Vec<model::Server>);

/// The two that are compared take turns.
pub fn both(first: impl Fn() -> Blocks, second: impl Fn() -> Blocks) -> (Blocks, Blocks) {
    (1..ROUNDS).fold((first(), second()), |best, _| (least(best.0, first()), least(best.1, second())))
}

const ROUNDS: u32 = 5;
/// The library's time for all, in Rust's.
const GOAL: f64 = 0.7;

fn least(best: Blocks, again: Blocks) -> Blocks {
    (std::array::from_fn(|block| best.0[block].min(again.0[block])), again.1)
}

/// By turns on shards 0, 1 and on shards 2, 3; or all on shards 0, 1.
pub fn blocks<E: Engine>(engine: &E, by_turns: bool) -> Blocks {
    let mut best = [f64::MAX; 8];
    let mut servers = Vec::new();
    let begun = Instant::now();
    while servers.is_empty() || begun.elapsed() < Duration::from_millis(400) {
        servers = (0..12).map(|id| engine.fresh(id).expect("a server")).collect();
        for block in 0..8 {
            let start = Instant::now();
            (8 * block..8 * block + 8).for_each(|t| transaction(engine, &mut servers, t, by_turns && t % 2 == 1));
            best[block as usize] = best[block as usize].min(start.elapsed().as_secs_f64());
        }
    }
    (best, servers.iter().map(|server| engine.see_server(server)).collect())
}

fn transaction<E: Engine>(engine: &E, servers: &mut [E::Server], t: u32, upper: bool) {
    let (first, mut pieces) = (if upper { 6 } else { 0 }, pieces(2));
    pieces.list[..2].iter_mut().for_each(|piece| piece.shard += first as u32 / 3);
    let mut drive = engine.blank();
    engine.start(&mut drive, t % 8, t, &pieces).expect("a good start");
    let (mut message, mut answer) = ([0; LONGEST], [0; LONGEST]);
    for phase in [1, 3] {
        let due = engine.due(&drive, &mut message).expect("a message due");
        assert_eq!(due.servers, 0b111111 << first);
        for server in &mut servers[first..first + 6] {
            let length = engine.take(server, &message[..due.length], &mut answer).expect("an answer");
            if phase == 1 {
                engine.reply(&mut drive, &answer[..length]).expect("a good reply");
            } else {
                assert_eq!(answer[12..length], [0, 0, 0, 1], "a CommitOK at whose Commit one number ran");
            }
        }
    }
}

pub fn print(library: &Blocks, rust: &Blocks, held: u32) {
    assert!(library.1 == rust.1, "the servers differ");
    for (block, (ours, theirs)) in library.0.iter().zip(rust.0).enumerate() {
        let held = |block| block as u32 * held / 8;
        println!(
            "| {} to {} | {:.0} | {:.0} | {:.2} |",
            held(block),
            held(block + 1),
            8.0 / ours,
            8.0 / theirs,
            ours / theirs
        );
    }
    let (ours, theirs): (f64, f64) = (library.0.iter().sum(), rust.0.iter().sum());
    let verdict = if ours <= GOAL * theirs { "met" } else { "**missed**" };
    println!("| all 64 | {:.0} | {:.0} | {:.2}; {GOAL}: {verdict} |", 64.0 / ours, 64.0 / theirs, ours / theirs);
}
