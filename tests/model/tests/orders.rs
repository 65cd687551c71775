//! The orders of refusals: of any two faults of one message, the one that stands first in the order is answered.

mod common;

use common::*;
use model::drive::{self, PREPARE};
use model::{Drive, Message, Pieces, Server, Vote};

/// A fault, by the number that it is refused with.
type Fault<S> = (u32, fn(&mut S, &mut Message));

/// Each fault alone, and each pair of them, is refused by the number that comes first.
fn first_wins<S: Clone + PartialEq + std::fmt::Debug>(
    state: &S,
    message: &Message,
    faults: &[Fault<S>],
    step: fn(&mut S, &Message) -> Result<(), model::Refusal>,
) {
    assert_eq!(step(&mut state.clone(), message), Ok(()));
    for (place, first) in faults.iter().enumerate() {
        for second in &faults[place..] {
            let (mut state, mut message) = (state.clone(), *message);
            second.1(&mut state, &mut message);
            first.1(&mut state, &mut message);
            let lent = state.clone();
            assert_eq!(step(&mut state, &message).map_err(number), Err(first.0), "{} with {}", first.0, second.0);
            assert_eq!(state, lent);
        }
    }
}

fn at_server(server: &mut Server, message: &Message) -> Result<(), model::Refusal> {
    model::server::step(server, message).map(|_| ())
}

/// The pieces of T8 in every message here.
fn ours() -> Pieces {
    pieces(&[(0, 3, 1, 5), (1, 0, 1, 5)])
}

/// Other pieces, that touch the same shards.
fn others() -> Pieces {
    pieces(&[(0, 3, 1, 6), (1, 0, 1, 5)])
}

fn change_pieces(message: &mut Message, change: fn(&mut Pieces)) {
    match message {
        Message::PreAccept { pieces, .. }
        | Message::Accept { pieces, .. }
        | Message::Commit { pieces, .. }
        | Message::Prepare { pieces, .. }
        | Message::Done { pieces, .. } => change(pieces),
        _ => panic!("no pieces"),
    }
}

fn change_ballot(message: &mut Message, to: u32) {
    match message {
        Message::PreAccept { ballot, .. }
        | Message::Accept { ballot, .. }
        | Message::Prepare { ballot, .. }
        | Message::PreAcceptOk { ballot, .. }
        | Message::AcceptOk { ballot, .. }
        | Message::PrepareOk { ballot, .. } => *ballot = to,
        Message::Behind { asked, .. } => *asked = to,
        _ => panic!("no ballot"),
    }
}

fn name_an_untouched_shard(message: &mut Message) {
    match message {
        Message::Accept { set, .. } | Message::Commit { set, .. } | Message::Done { set, .. } => *set = set.with(3, 1),
        Message::PrepareOk { accepted, .. } => *accepted = Some(Vote { ballot: 0, set: set([0, 0, 0, 1]) }),
        _ => panic!("no set"),
    }
}

const BROKEN_FORM: Fault<Server> = (13, |server, _| server.log.count = 65);
const NINE_PIECES: Fault<Server> = (12, |_, message| change_pieces(message, |pieces| pieces.count = 9));
const BALLOT_3: Fault<Server> = (1, |_, message| change_ballot(message, 3));
const KIND_3: Fault<Server> = (2, |_, message| change_pieces(message, |pieces| pieces.list[0].kind = 3));
const UNTOUCHED_WORD: Fault<Server> = (3, |_, message| name_an_untouched_shard(message));
const OTHER_SHARD: Fault<Server> = (4, |server, _| server.id = 9);
const OTHERS_HELD: Fault<Server> = (5, |server, _| server.record_mut(8).pieces = Some(others()));
const OTHER_SET: Fault<Server> = (6, |server, _| {
    let record = server.record_mut(8);
    record.pieces.get_or_insert(ours());
    record.committed = Some(set([4, 0, 0, 0]));
});

#[test]
fn at_a_server_with_a_ballot() {
    let asking = [BROKEN_FORM, NINE_PIECES, BALLOT_3, KIND_3, OTHER_SHARD, OTHERS_HELD];
    let server = fresh(0);
    first_wins(&server, &Message::PreAccept { t: 8, ballot: 0, pieces: ours() }, &asking, at_server);
    first_wins(&server, &Message::Prepare { t: 8, ballot: 8, pieces: ours() }, &asking, at_server);
    let accept = Message::Accept { t: 8, ballot: 8, pieces: ours(), set: set([2, 0, 0, 0]) };
    let with_set = [BROKEN_FORM, NINE_PIECES, BALLOT_3, KIND_3, UNTOUCHED_WORD, OTHER_SHARD, OTHERS_HELD];
    first_wins(&server, &accept, &with_set, at_server);
}

#[test]
fn at_a_server_that_is_told_of_a_commit() {
    const T_64: Fault<Server> = (1, |_, message| match message {
        Message::Commit { t, .. } | Message::Done { t, .. } => *t = 64,
        _ => panic!("not told"),
    });
    let told = [BROKEN_FORM, NINE_PIECES, T_64, KIND_3, UNTOUCHED_WORD, OTHERS_HELD, OTHER_SET];
    let set = set([2, 0, 0, 0]);
    first_wins(&fresh(0), &Message::Commit { t: 8, pieces: ours(), set }, &told, at_server);
    first_wins(&fresh(0), &Message::Done { t: 8, pieces: ours(), set }, &told, at_server);
    first_wins(&fresh(5), &Message::Done { t: 8, pieces: ours(), set }, &told, at_server);
}

#[test]
fn a_server_refuses_every_answer_but_done_as_unknown() {
    let answers = [
        Message::PreAcceptOk { t: 64, server: 12, ballot: 3, word: 0 },
        Message::AcceptOk { t: 64, server: 12, ballot: 3 },
        Message::CommitOk { t: 64, server: 12, ran: 65 },
        Message::PrepareOk { t: 64, server: 12, ballot: 3, arrival: None, accepted: None },
        Message::Behind { t: 64, server: 12, asked: 3, promise: 3 },
        Message::NotYet { t: 64, server: 12 },
        Message::Results { t: 64, server: 12, values: Default::default() },
    ];
    for answer in answers {
        assert_eq!(refused(&mut fresh(0), answer), 12);
        let mut broken = fresh(0);
        broken.id = 12;
        assert_eq!(refused(&mut broken, answer), 13);
    }
}

#[test]
fn a_server_refuses_a_prepare_at_0_and_numbers_above_63() {
    let mut server = fresh(0);
    assert_eq!(refused(&mut server, Message::Prepare { t: 8, ballot: 0, pieces: ours() }), 1);
    for ballot in [1, 7, 65_536, u32::MAX] {
        assert_eq!(refused(&mut server, Message::PreAccept { t: 8, ballot, pieces: ours() }), 1);
    }
    assert_eq!(refused(&mut server, Message::Fetch { t: 64 }), 1);
}

/// Coordinator 0 recovers T8 at ballot 8.
fn recovering() -> Drive {
    let mut drive = Drive::default();
    drive::recover(&mut drive, 0, 8, &ours(), 0).unwrap();
    drive
}

const BROKEN_DRIVE: Fault<Drive> = (13, |drive, _| drive.phase = 4);
const NINE_AT_DRIVE: Fault<Drive> = (12, |_, message| change_pieces(message, |pieces| pieces.count = 9));
const BALLOT_3_AT_DRIVE: Fault<Drive> = (1, |_, message| change_ballot(message, 3));
const KIND_3_AT_DRIVE: Fault<Drive> = (2, |_, message| change_pieces(message, |pieces| pieces.list[0].kind = 3));
const ANOTHER_BALLOT: Fault<Drive> = (8, |_, message| change_ballot(message, 16));
const ANOTHER_T: Fault<Drive> = (8, |_, message| match message {
    Message::Done { t, .. } => *t = 9,
    _ => panic!("not Done"),
});
const OTHERS_SAID: Fault<Drive> = (5, |_, message| change_pieces(message, |pieces| pieces.list[0].operand = 6));
const UNTOUCHED_AT_DRIVE: Fault<Drive> = (3, |_, message| name_an_untouched_shard(message));

#[test]
fn at_a_drive() {
    let prepared = Message::PrepareOk { t: 8, server: 1, ballot: 8, arrival: Some(2), accepted: None };
    let counting = [BROKEN_DRIVE, BALLOT_3_AT_DRIVE, ANOTHER_BALLOT, UNTOUCHED_AT_DRIVE];
    first_wins(&recovering(), &prepared, &counting, drive::reply);
    let behind = Message::Behind { t: 8, server: 1, asked: 8, promise: 11 };
    first_wins(&recovering(), &behind, &counting[..3], drive::reply);
    const T_64: Fault<Drive> = (1, |_, message| match message {
        Message::Done { t, .. } => *t = 64,
        _ => panic!("not Done"),
    });
    let done = Message::Done { t: 8, pieces: ours(), set: set([2, 0, 0, 0]) };
    let told = [BROKEN_DRIVE, NINE_AT_DRIVE, T_64, KIND_3_AT_DRIVE, ANOTHER_T, OTHERS_SAID, UNTOUCHED_AT_DRIVE];
    first_wins(&recovering(), &done, &told, drive::reply);
}

#[test]
fn at_a_drive_with_words() {
    let mut drive = recovering();
    drive.phase = 1;
    const OWN_BIT: Fault<Drive> = (3, |_, message| match message {
        Message::PreAcceptOk { word, .. } => *word = 256,
        _ => panic!("no word"),
    });
    let word = Message::PreAcceptOk { t: 8, server: 1, ballot: 8, word: 2 };
    first_wins(&drive, &word, &[BROKEN_DRIVE, BALLOT_3_AT_DRIVE, ANOTHER_BALLOT, OWN_BIT], drive::reply);
}

#[test]
fn a_drive_refuses_codes_that_it_does_not_take_before_all_else() {
    let mut over = recovering();
    drive::reply(&mut over, &Message::Done { t: 8, pieces: ours(), set: set([0; 4]) }).unwrap();
    let untaken = [
        Message::CommitOk { t: 64, server: 12, ran: 65 },
        Message::NotYet { t: 64, server: 12 },
        Message::Results { t: 64, server: 12, values: Default::default() },
        Message::Inquire { t: 64 },
        Message::PreAccept { t: 64, ballot: 3, pieces: Pieces::default() },
    ];
    for message in untaken {
        for mut drive in [recovering(), over.clone()] {
            assert_eq!(drive::reply(&mut drive, &message).map_err(number), Err(12));
        }
        assert_eq!(drive::reply(&mut Drive::default(), &message).map_err(number), Err(13));
    }
}

#[test]
fn a_reply_from_an_untouched_or_counted_server_or_in_phase_3_is_not_awaited() {
    let mut drive = recovering();
    let from = |server| Message::PrepareOk { t: 8, server, ballot: 8, arrival: None, accepted: None };
    assert_eq!(drive::reply(&mut drive, &from(6)).map_err(number), Err(8));
    assert_eq!(drive::reply(&mut drive, &from(0)), Ok(()));
    assert_eq!(drive::reply(&mut drive, &from(0)).map_err(number), Err(8));
    let behind = |server| Message::Behind { t: 8, server, asked: 8, promise: 11 };
    assert_eq!(drive::reply(&mut drive, &behind(6)).map_err(number), Err(8));
    assert_eq!(drive::reply(&mut drive, &behind(0)), Ok(()));
    assert_eq!(drive.seen, 11);
    let done = Message::Done { t: 8, pieces: ours(), set: set([0; 4]) };
    drive::reply(&mut drive, &done).unwrap();
    for late in [from(1), behind(1), done] {
        assert_eq!(drive::reply(&mut drive, &late).map_err(number), Err(8));
    }
    assert_eq!(drive::again(&mut drive).map_err(number), Err(8));
    assert_eq!(drive::move_on(&mut drive).map_err(number), Err(8));
    assert_eq!(drive.phase, 3);
}

#[test]
fn the_host_events_of_a_drive() {
    let mut lent = Drive { phase: 77, ..Drive::default() };
    let nine = Pieces { count: 9, ..ours() };
    let kind = pieces(&[(0, 3, 3, 5)]);
    assert_eq!(drive::start(&mut lent, 8, 64, &nine).map_err(number), Err(12));
    assert_eq!(drive::start(&mut lent, 8, 64, &kind).map_err(number), Err(1));
    assert_eq!(drive::start(&mut lent, 1, 8, &kind).map_err(number), Err(1));
    assert_eq!(drive::start(&mut lent, 0, 8, &kind).map_err(number), Err(2));
    assert_eq!(drive::recover(&mut lent, 8, 8, &nine, u32::MAX).map_err(number), Err(12));
    assert_eq!(drive::recover(&mut lent, 8, 8, &kind, u32::MAX).map_err(number), Err(1));
    assert_eq!(drive::recover(&mut lent, 1, 8, &kind, u32::MAX).map_err(number), Err(2));
    assert_eq!(drive::recover(&mut lent, 1, 8, &ours(), u32::MAX).map_err(number), Err(9));
    assert_eq!(lent, Drive { phase: 77, ..Drive::default() });
    assert_eq!(drive::again(&mut lent).map_err(number), Err(13));
    assert_eq!(drive::move_on(&mut lent).map_err(number), Err(13));
    assert_eq!(drive::due(&lent).map_err(number), Err(13));
    drive::recover(&mut lent, 2, 8, &ours(), 65_529).unwrap();
    assert_eq!((lent.ballot, lent.phase), (65_530, PREPARE));
    assert_eq!(drive::move_on(&mut lent).map_err(number), Err(7));
    assert_eq!(drive::again(&mut lent).map_err(number), Err(9));
}
