//! Running, held against the words of document 01 taken literally, on graphs by chance.

mod common;

use chance::Chance;
use common::*;
use model::run::{run, Waits};
use model::{Counter, Server};

fn committed(server: &Server, t: u32) -> bool {
    server.record(t).committed.is_some()
}

fn named_by(server: &Server, t: u32) -> Vec<u32> {
    (0..64).filter(|u| server.record(t).committed.map_or(false, |set| set.all() >> u & 1 == 1)).collect()
}

/// Everything before T, by walking from number to number.
fn before(server: &Server, t: u32) -> Vec<u32> {
    let mut found: Vec<u32> = Vec::new();
    let mut visit = named_by(server, t);
    while let Some(u) = visit.pop() {
        if !found.contains(&u) {
            found.push(u);
            visit.extend(named_by(server, u));
        }
    }
    found
}

fn closed(server: &Server, t: u32) -> bool {
    committed(server, t) && before(server, t).iter().all(|u| committed(server, *u))
}

fn ready(server: &Server, t: u32) -> bool {
    let ran = |u: &u32| server.log.entries().contains(u);
    closed(server, t) && !ran(&t) && before(server, t).iter().all(|u| ran(u) || before(server, *u).contains(&t))
}

#[test]
fn a_run_takes_the_lowest_ready_number_and_those_before_and_after_it() {
    let mut chance = Chance::of(1);
    for _ in 0..2000 {
        let mut server = by_chance(&mut chance);
        loop {
            let lowest = (0..64).find(|t| ready(&server, *t));
            let logged = server.log.entries().len();
            let many = run(&mut server).unwrap();
            let ran = &server.log.entries()[logged..];
            match lowest {
                None => assert_eq!((many, ran.len()), (0, 0)),
                Some(t) => {
                    let both = |u: u32| before(&server, t).contains(&u) && before(&server, u).contains(&t);
                    let group: Vec<u32> = (0..64).filter(|u| *u == t || both(*u)).collect();
                    assert_eq!((many as usize, ran), (group.len(), &group[..]));
                }
            }
            if many == 0 {
                break;
            }
        }
        let logged = server.log.entries();
        assert!((0..64).all(|t| closed(&server, t) == logged.contains(&t)), "a closed number is left unrun");
        let waits = Waits::of(&server);
        assert!((0..64).all(|t| waits.closed(t) == closed(&server, t)));
    }
}

#[test]
fn a_number_without_pieces_here_is_logged_with_no_results() {
    let mut server = fresh(9);
    assert_eq!(commit(&mut server, 5, pieces(&[(0, 0, 1, 1)]), [0; 4]), 1);
    assert_eq!(server.log.entries(), [5]);
    assert_eq!(server.record(5).results.unwrap().count, 0);
    assert_eq!(server.counters, [Counter::default(); 16]);
}
