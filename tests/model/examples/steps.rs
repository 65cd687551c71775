//! Times a million steps of a server, of which most are taken and some refused, with the runs of its Commits.

use chance::Chance;
use model::server::step;
use model::{Message, Piece, Pieces, Server, Set};
use std::time::Instant;

const STEPS: u32 = 1_000_000;

fn pieces_of(t: u32) -> Pieces {
    let list: Vec<Piece> = (0..1 + t % 8)
        .map(|n| Piece { shard: n / 4, key: (t + 2 * n) % 4 + 4 * (n % 4), kind: 1 + t % 2, operand: t as i32 })
        .collect();
    Pieces::of(&list)
}

fn message(chance: &mut Chance) -> Message {
    let t = chance.below(64);
    let pieces = pieces_of(t);
    let ballot = chance.pick(&[0, 8, 9, 16]);
    let set = Set([chance.word() & chance.word() & !(u64::MAX << t), 0, 0, 0]);
    match chance.below(20) {
        0..=7 => Message::PreAccept { t, ballot, pieces },
        8..=12 => Message::Accept { t, ballot, pieces, set },
        13..=15 => Message::Prepare { t, ballot: ballot.max(8), pieces },
        16 => Message::Commit { t, pieces, set },
        17 => Message::Fetch { t },
        _ => Message::Inquire { t },
    }
}

fn main() {
    let mut chance = Chance::of(1);
    let begun = Instant::now();
    let (mut taken, mut ran) = (0, 0);
    let mut server = Server::fresh(0).unwrap();
    for n in 0..STEPS {
        if n % 1000 == 0 {
            server = Server::fresh(0).unwrap();
        }
        let answer = step(&mut server, &message(&mut chance));
        taken += u32::from(answer.is_ok());
        if let Ok(Message::CommitOk { ran: more, .. }) = answer {
            ran += more;
        }
    }
    let seconds = begun.elapsed().as_secs_f64();
    println!("{STEPS} steps, {taken} taken, {ran} numbers run, {seconds:.1} s");
    assert!(taken > STEPS / 2 && ran > 1000 && seconds < 60.0);
}
