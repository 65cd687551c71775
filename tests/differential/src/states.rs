//! States to lend: reached by steps of the model, then left so, dressed with rubbish where it is ignored, or damaged.

use crate::messages::{for_drive, for_server};
use crate::values::{ballot, damage, edge, fill, near_an_end, usual_pieces, FEW};
use chance::Chance;
use engine::layout::{self, Numbers};
use engine::ran::take_back;
use engine::{image, Engine, Plain, LONGEST};
use model::cluster::origin;
use model::Set;

/// How a state is changed before it is lent.
enum Dress {
    Plain,
    Rubbish,
    Damage(u32),
    Filled,
}

fn dress(chance: &mut Chance) -> Dress {
    match chance.below(20) {
        0..=7 => Dress::Plain,
        8..=12 => Dress::Rubbish,
        13..=17 => Dress::Damage(1),
        18 => Dress::Damage(chance.between(2, 4)),
        _ => Dress::Filled,
    }
}

pub fn server(chance: &mut Chance) -> layout::Server {
    let mut lent = image::server_image(&walked_server(chance));
    if chance.percent(60) {
        lent.counters.list.iter_mut().for_each(|counter| *counter = any_counter(chance));
    }
    match dress(chance) {
        Dress::Plain => {}
        Dress::Rubbish => rubbish_in_server(chance, &mut lent),
        Dress::Damage(times) => (0..times).for_each(|_| damage_server(chance, &mut lent)),
        Dress::Filled => fill(chance, &mut lent),
    }
    lent
}

pub fn drive(chance: &mut Chance) -> layout::Drive {
    let mut lent = image::drive_image(&walked_drive(chance));
    match dress(chance) {
        Dress::Plain => {}
        Dress::Rubbish => rubbish_in_drive(chance, &mut lent),
        Dress::Damage(times) => damage(chance, &mut lent, times),
        Dress::Filled => fill(chance, &mut lent),
    }
    lent
}

/// A counter at an end of the range or anywhere, full or not: any is in form. A mark that is set is any number but 0.
fn any_counter(chance: &mut Chance) -> layout::Counter {
    let full = match chance.below(4) {
        0 => 1,
        1 => edge(chance),
        _ => 0,
    };
    layout::Counter { value: near_an_end(chance), full }
}

/// A server after some messages. In most, numbers are ready, as they never are in one that began fresh: the runs of some steps were taken back, and some numbers were committed and not run.
fn walked_server(chance: &mut Chance) -> model::Server {
    let mut server = model::Server::fresh(chance.below(12)).expect("a server of the cluster");
    let unrun = chance.pick(&[0, 30, 90]);
    for _ in 0..chance.pick(&[0, 4, 20, 60]) {
        let before = server.clone();
        let message = for_server(chance, &server);
        let taken = Plain.take(&mut server, &message, &mut [0; LONGEST]);
        if chance.percent(unrun) {
            take_back(&mut server, &before);
        }
        if taken.is_ok() && chance.percent(5) {
            Plain.run(&mut server).expect("a server in form runs");
        }
    }
    for _ in 0..chance.pick(&[0, 1, 3]) {
        hold_unrun(chance, &mut server);
    }
    server
}

/// Holds a number as committed, after some of those that are committed already.
fn hold_unrun(chance: &mut Chance, server: &mut model::Server) {
    let t = if chance.percent(80) { chance.pick(&FEW) } else { chance.below(64) };
    let committed = (0..64).filter(|u| server.record(*u).committed.is_some()).fold(0, |word, u| word | 1u64 << u);
    let earlier = committed & if chance.percent(50) { chance.word() } else { 0 };
    let record = server.record_mut(t);
    if record.committed.is_none() {
        let pieces = *record.pieces.get_or_insert(usual_pieces(t));
        let first = pieces.shards().next().expect("good pieces have a shard");
        record.committed = Some(Set::EMPTY.with(first, earlier));
    }
}

/// A drive after its beginning and some replies.
fn walked_drive(chance: &mut Chance) -> model::Drive {
    let mut drive = model::Drive::default();
    let t = chance.pick(&FEW);
    let pieces = usual_pieces(t);
    let begun = if chance.percent(50) {
        Plain.start(&mut drive, origin(t), t, &pieces)
    } else {
        Plain.recover(&mut drive, chance.below(8), t, &pieces, chance.pick(&[0, 8, 40, 65_500]))
    };
    begun.expect("a drive begins");
    for _ in 0..chance.pick(&[0, 2, 6, 16]) {
        let reply = for_drive(chance, &drive);
        // Refused replies and events change nothing, and are as good as none.
        let _ = match chance.below(12) {
            0 => Plain.move_on(&mut drive),
            1 if chance.percent(20) => Plain.again(&mut drive),
            _ => Plain.reply(&mut drive, &reply),
        };
    }
    if chance.percent(2) {
        return model::Drive::default();
    }
    drive
}

/// Changes a number that matters: of a record in use, of the log, or any.
fn damage_server(chance: &mut Chance, server: &mut layout::Server) {
    let used: Vec<usize> = (0..64).filter(|t| server.records[*t].pieces.count != 0).collect();
    match chance.below(10) {
        0 => server.id = edge(chance),
        1 => server.log.count = edge(chance),
        2 => {
            let logged = server.log.count.clamp(1, 64);
            server.log.list[chance.below(logged) as usize] = edge(chance);
        }
        3 => server.records[chance.below(64) as usize].promise = ballot(chance),
        4..=8 if !used.is_empty() => {
            let t = chance.pick(&used);
            damage_record(chance, &mut server.records[t]);
        }
        _ => damage(chance, server, 1),
    }
}

fn damage_record(chance: &mut Chance, record: &mut layout::Record) {
    match chance.below(6) {
        0 => damage(chance, &mut record.pieces, 1),
        1 => damage(chance, &mut record.arrival, 1),
        2 => damage(chance, &mut record.accepted, 1),
        3 => damage(chance, &mut record.committed, 1),
        4 => record.values.count = chance.below(10),
        _ => record.ran ^= 1,
    }
}

/// Rubbish behind the counts and the flags that are 0, and any number but 0 for those that aren't.
fn rubbish_in_server(chance: &mut Chance, server: &mut layout::Server) {
    server.records.iter_mut().for_each(|record| rubbish_in_record(chance, record));
    let full = server.counters.list.iter_mut().filter(|counter| counter.full != 0);
    full.for_each(|counter| counter.full = edge(chance).max(1));
    let logged = server.log.count.min(64) as usize;
    server.log.list[logged..].iter_mut().for_each(|number| *number = edge(chance));
}

fn rubbish_in_record(chance: &mut Chance, record: &mut layout::Record) {
    rubbish_in_pieces(chance, &mut record.pieces);
    rubbish_behind(chance, record.arrival.some, &mut record.arrival, |maybe| &mut maybe.some);
    rubbish_behind(chance, record.accepted.some, &mut record.accepted, |maybe| &mut maybe.some);
    rubbish_behind(chance, record.committed.some, &mut record.committed, |maybe| &mut maybe.some);
    if record.ran == 0 {
        fill(chance, &mut record.values);
    } else {
        record.ran = edge(chance).max(1);
        let count = record.values.count.min(8) as usize;
        record.values.list[..count].iter_mut().for_each(|value| value.kept *= chance.between(1, 9));
    }
}

fn rubbish_in_pieces(chance: &mut Chance, pieces: &mut layout::Pieces) {
    let count = pieces.count;
    let held = pieces.list;
    fill(chance, pieces);
    pieces.count = count;
    pieces.list[..count as usize].copy_from_slice(&held[..count as usize]);
}

fn rubbish_behind<M: Numbers>(chance: &mut Chance, some: u32, maybe: &mut M, flag: fn(&mut M) -> &mut u32) {
    if some == 0 {
        fill(chance, maybe);
        *flag(maybe) = 0;
    } else {
        *flag(maybe) = edge(chance).max(1);
    }
}

fn rubbish_in_drive(chance: &mut Chance, drive: &mut layout::Drive) {
    rubbish_in_pieces(chance, &mut drive.pieces);
    rubbish_behind(chance, drive.chosen.some, &mut drive.chosen, |maybe| &mut maybe.some);
    for answer in &mut drive.answers {
        if answer.counted == 0 {
            fill(chance, answer);
            answer.counted = 0;
        } else {
            answer.counted = edge(chance).max(1);
            rubbish_behind(chance, answer.arrival.some, &mut answer.arrival, |maybe| &mut maybe.some);
            rubbish_behind(chance, answer.accepted.some, &mut answer.accepted, |maybe| &mut maybe.some);
        }
    }
}
