//! The form of a lent state: each way to break it is refused by 13, and what the document doesn't list isn't.

mod common;

use common::*;
use model::drive;
use model::run::{run, run_all, wanted};
use model::server::keeps_form;
use model::{Drive, Message, Server, Value, Values, Vote};

/// Server 4 (shard 1) with T8 run, T1 committed and waiting, T2 accepted, T3 arrived.
fn rich() -> Server {
    let mut server = fresh(4);
    let both = pieces(&[(0, 3, 1, 5), (1, 0, 1, 5)]);
    assert_eq!(commit(&mut server, 8, both, [0; 4]), 1);
    assert_eq!(commit(&mut server, 1, both, [256, 256 | 1 << 20, 0, 0]), 0);
    take(&mut server, Message::Accept { t: 2, ballot: 11, pieces: both, set: set([2, 0, 0, 0]) });
    take(&mut server, Message::PreAccept { t: 3, ballot: 0, pieces: both });
    assert!(keeps_form(&server));
    server
}

#[test]
fn each_break_of_a_servers_form_is_seen() {
    let breaks: [(&str, fn(&mut Server)); 22] = [
        ("server above 11", |s| s.id = 12),
        ("held pieces of no kind", |s| s.record_mut(3).pieces.as_mut().unwrap().list[0].kind = 3),
        ("held pieces that don't rise", |s| s.record_mut(3).pieces.as_mut().unwrap().list[1].shard = 0),
        ("nine held pieces", |s| s.record_mut(3).pieces.as_mut().unwrap().count = 9),
        ("pieces of count 0 that are held", |s| s.record_mut(3).pieces.as_mut().unwrap().count = 0),
        ("promise 7", |s| s.record_mut(40).promise = 7),
        ("promise 65,536", |s| s.record_mut(40).promise = 65_536),
        ("accepted ballot 1", |s| s.record_mut(2).accepted.as_mut().unwrap().ballot = 1),
        ("arrival without pieces", |s| s.record_mut(40).arrival = Some(0)),
        ("accepted without pieces", |s| s.record_mut(40).accepted = Some(Vote { ballot: 0, set: set([0; 4]) })),
        ("committed without pieces", |s| s.record_mut(40).committed = Some(set([0; 4]))),
        ("arrival with its own number", |s| s.record_mut(3).arrival = Some(8)),
        ("accepted set with its own number", |s| s.record_mut(2).accepted.as_mut().unwrap().set.0[0] = 4),
        ("committed word of an untouched shard", |s| s.record_mut(1).committed.as_mut().unwrap().0[3] = 1),
        ("log above 64", |s| s.log.count = 65),
        ("log with a number above 63", |s| s.log.list[0] = 64),
        ("log with a repeat", |s| (s.log.count, s.log.list[1]) = (2, 8)),
        ("log with an uncommitted number", |s| (s.log.count, s.log.list[1]) = (2, 2)),
        ("log without what is before", |s| {
            (s.log.count, s.log.list[1]) = (2, 1);
            s.record_mut(1).results = Some(Values::of(&[Value::default()]));
        }),
        ("results missing", |s| s.record_mut(8).results = None),
        ("results of an unlogged number", |s| s.record_mut(1).results = Some(Values::of(&[Value::default()]))),
        ("results of another count", |s| s.record_mut(8).results.as_mut().unwrap().count = 2),
    ];
    for (what, damage) in breaks {
        let mut server = rich();
        damage(&mut server);
        let lent = server.clone();
        assert_eq!(refused(&mut server, Message::Inquire { t: 64 }), 13, "{what}");
        assert_eq!(run(&mut server).map_err(number), Err(13), "{what}");
        assert_eq!(run_all(&mut server).map_err(number), Err(13), "{what}");
        assert_eq!(wanted(&server).map_err(number), Err(13), "{what}");
        assert_eq!(server, lent);
    }
}

#[test]
fn what_is_odd_but_not_listed_keeps_the_form() {
    let oddities: [(&str, fn(&mut Server)); 9] = [
        ("accepted above the promise", |s| s.record_mut(2).accepted.as_mut().unwrap().ballot = 65_535),
        ("promise without pieces", |s| s.record_mut(40).promise = 8),
        ("arrival 0 at an untouched shard", |s| {
            s.record_mut(40).pieces = Some(pieces(&[(0, 0, 1, 1)]));
            s.record_mut(40).arrival = Some(0);
        }),
        ("words that name unknown numbers", |s| s.record_mut(3).arrival = Some(1 << 50)),
        ("counters of any value", |s| s.counters[7].value = -1),
        ("a counter that is full, at any value", |s| s.counters[7].full = true),
        ("results of any value", |s| s.record_mut(8).results.as_mut().unwrap().list[0].value = 99),
        ("what stands behind the log's count", |s| s.log.list[5] = 99),
        ("what stands behind a count of pieces", |s| s.record_mut(3).pieces.as_mut().unwrap().list[5].kind = 99),
    ];
    for (what, change) in oddities {
        let mut server = rich();
        change(&mut server);
        assert_eq!(refused(&mut server, Message::Inquire { t: 64 }), 1, "{what}");
    }
}

/// Coordinator 0's T8 on shards 0 and 1, with an answer counted from server 0, in a phase.
fn driving(phase: u32) -> Drive {
    let mut drive = Drive::default();
    let both = pieces(&[(0, 3, 1, 5), (1, 0, 1, 5)]);
    drive::recover(&mut drive, 0, 8, &both, 8).unwrap();
    drive.phase = phase;
    drive.set = if phase >= 2 { Some(set([2, 4, 0, 0])) } else { None };
    if phase < 3 {
        drive.answers[0] = Some(Default::default());
    }
    if phase < 2 {
        drive.answers[0].as_mut().unwrap().word = Some(2);
    }
    assert!(drive::keeps_form(&drive));
    drive
}

fn broken(drive: &Drive) -> bool {
    !drive::keeps_form(drive)
}

#[test]
fn each_break_of_a_drives_form_is_seen() {
    let breaks: [(&str, fn(&mut Drive)); 13] = [
        ("T above 63", |d| d.t = 64),
        ("coordinator above 7", |d| d.coordinator = 8),
        ("phase above 3", |d| d.phase = 4),
        ("no pieces", |d| d.pieces.count = 0),
        ("nine pieces", |d| d.pieces.count = 9),
        ("pieces of no kind", |d| d.pieces.list[0].kind = 3),
        ("a ballot of another coordinator", |d| d.ballot = 17),
        ("a ballot that is never valid", |d| d.ballot = 7),
        ("ballot 0 of another than the origin", |d| (d.ballot, d.coordinator) = (0, 1)),
        ("a promise that is never valid", |d| d.seen = 1),
        ("an answer from an untouched shard", |d| d.answers[6] = Some(Default::default())),
        ("a set in phase 0 or 1, none in 2 or 3", |d| d.set = if d.set.is_some() { None } else { Some(set([0; 4])) }),
        ("ballot 0 in phase 0, an answer in phase 3", |d| match d.phase {
            0 => d.ballot = 0,
            3 => d.answers[0] = Some(Default::default()),
            _ => d.phase = 9,
        }),
    ];
    for phase in 0..4 {
        for (what, damage) in breaks {
            let mut drive = driving(phase);
            damage(&mut drive);
            assert!(broken(&drive), "{what} in phase {phase}");
        }
    }
}

#[test]
fn answers_that_decide_break_the_form() {
    let answer_all = |phase: u32, servers: &[usize]| {
        let mut drive = driving(phase);
        for server in servers {
            drive.answers[*server] = drive.answers[0];
        }
        broken(&drive)
    };
    assert!(!answer_all(0, &[1, 2, 3, 4]) && answer_all(0, &[1, 2, 3, 4, 5]));
    assert!(!answer_all(1, &[1, 2, 3, 4]) && answer_all(1, &[1, 2, 3, 4, 5]));
    assert!(!answer_all(2, &[1, 2, 3]) && answer_all(2, &[1, 3, 4]));
}

#[test]
fn held_words_and_votes_keep_their_rules() {
    let with = |phase: u32, change: fn(&mut model::drive::Answer)| {
        let mut drive = driving(phase);
        change(drive.answers[0].as_mut().unwrap());
        broken(&drive)
    };
    assert!(with(0, |a| a.word = Some(256)) && with(1, |a| a.word = Some(256)));
    assert!(with(0, |a| a.accepted = Some(Vote { ballot: 3, set: set([0; 4]) })));
    assert!(with(0, |a| a.accepted = Some(Vote { ballot: 0, set: set([256, 0, 0, 0]) })));
    assert!(with(0, |a| a.accepted = Some(Vote { ballot: 0, set: set([0, 0, 1, 0]) })));
    let mut chosen = driving(2);
    chosen.set = Some(set([0, 0, 1, 0]));
    assert!(broken(&chosen));
    assert!(!with(1, |a| a.accepted = Some(Vote { ballot: 3, set: set([0; 4]) })));
    assert!(!with(2, |a| a.word = Some(256)));
}
