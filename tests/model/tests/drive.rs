//! The drive: what it sends, when it decides, and what it takes to the next phase.

mod common;

use common::*;
use model::drive::{again, due, move_on, recover, reply, start, ACCEPT, COMMIT, PREPARE, PRE_ACCEPT};
use model::{Drive, Message, Pieces, Vote};

/// T8 on shards 0 and 2.
fn ours() -> Pieces {
    pieces(&[(0, 3, 1, 5), (2, 0, 1, 5)])
}

const ADDRESSED: [u32; 6] = [0, 1, 2, 6, 7, 8];

fn started() -> Drive {
    let mut drive = Drive::default();
    start(&mut drive, 0, 8, &ours()).unwrap();
    drive
}

fn recovered(coordinator: u32, floor: u32) -> Drive {
    let mut drive = Drive::default();
    recover(&mut drive, coordinator, 8, &ours(), floor).unwrap();
    drive
}

fn hear(drive: &mut Drive, message: Message) {
    reply(drive, &message).unwrap();
}

fn word(drive: &Drive, server: u32, word: u64) -> Message {
    Message::PreAcceptOk { t: 8, server, ballot: drive.ballot, word }
}

fn prepared(drive: &Drive, server: u32, arrival: Option<u64>, accepted: Option<Vote>) -> Message {
    Message::PrepareOk { t: 8, server, ballot: drive.ballot, arrival, accepted }
}

#[test]
fn what_is_due_in_each_phase() {
    let mut drive = recovered(3, 0);
    let mask = ADDRESSED.iter().fold(0, |mask, server| mask | 1 << server);
    let sending = |drive: &Drive| {
        let sending = due(drive).unwrap();
        assert_eq!(sending.servers, mask);
        sending.message
    };
    assert_eq!(sending(&drive), Message::Prepare { t: 8, ballot: 11, pieces: ours() });
    for server in ADDRESSED {
        let message = prepared(&drive, server, None, None);
        hear(&mut drive, message);
    }
    assert_eq!(sending(&drive), Message::PreAccept { t: 8, ballot: 11, pieces: ours() });
    for server in ADDRESSED {
        let message = word(&drive, server, 2);
        hear(&mut drive, message);
    }
    let chosen = set([2, 0, 2, 0]);
    assert_eq!(sending(&drive), Message::Accept { t: 8, ballot: 11, pieces: ours(), set: chosen });
    for server in [0, 1, 6, 7] {
        hear(&mut drive, Message::AcceptOk { t: 8, server, ballot: 11 });
    }
    assert_eq!(sending(&drive), Message::Commit { t: 8, pieces: ours(), set: chosen });
}

#[test]
fn equal_words_within_each_shard_are_fast_at_ballot_0_only() {
    let mut drive = started();
    for (server, said) in ADDRESSED.into_iter().zip([2, 2, 2, 4, 4, 4]) {
        let message = word(&drive, server, said);
        hear(&mut drive, message);
    }
    assert_eq!((drive.phase, drive.set), (COMMIT, Some(set([2, 0, 4, 0]))));
}

#[test]
fn moving_on_with_two_in_each_is_never_fast() {
    let mut drive = started();
    for server in [0, 1, 6] {
        let message = word(&drive, server, 2);
        hear(&mut drive, message);
    }
    assert_eq!(move_on(&mut drive).map_err(number), Err(7));
    let message = word(&drive, 8, 4);
    hear(&mut drive, message);
    move_on(&mut drive).unwrap();
    assert_eq!((drive.phase, drive.set), (ACCEPT, Some(set([2, 0, 6, 0]))));
    assert_eq!(move_on(&mut drive).map_err(number), Err(7));
}

#[test]
fn recovery_takes_the_set_of_the_highest_ballot_of_all_shards() {
    let vote = |ballot, w| Some(Vote { ballot, set: set([w, 0, 0, 0]) });
    let mut drive = recovered(3, 40);
    let votes = [vote(0, 1), vote(0, 1), None, vote(11, 2), vote(9, 4), vote(11, 16)];
    for (server, accepted) in ADDRESSED.into_iter().zip(votes) {
        let message = prepared(&drive, server, Some(32), accepted);
        hear(&mut drive, message);
    }
    assert_eq!((drive.phase, drive.set), (ACCEPT, Some(set([2, 0, 0, 0]))));
}

#[test]
fn recovery_takes_equal_words_or_asks_anew() {
    let after = |words: [Option<u64>; 4]| {
        let mut drive = recovered(3, 40);
        for (server, arrival) in [0, 1, 7, 8].into_iter().zip(words) {
            let message = prepared(&drive, server, arrival, None);
            hear(&mut drive, message);
        }
        move_on(&mut drive).unwrap();
        (drive.phase, drive.set, drive.ballot)
    };
    let some = |w| Some(w);
    assert_eq!(after([some(2), some(2), some(4), some(4)]), (ACCEPT, Some(set([2, 0, 4, 0])), 43));
    assert_eq!(after([some(2), some(2), some(4), some(2)]), (PRE_ACCEPT, None, 43));
    assert_eq!(after([some(0), some(0), some(0), None]), (PRE_ACCEPT, None, 43));
}

#[test]
fn again_goes_above_its_own_ballot_and_every_promise_seen() {
    let mut drive = started();
    let message = word(&drive, 0, 0);
    hear(&mut drive, message);
    hear(&mut drive, Message::Behind { t: 8, server: 1, asked: 0, promise: 19 });
    hear(&mut drive, Message::Behind { t: 8, server: 0, asked: 0, promise: 11 });
    assert_eq!((drive.seen, drive.phase), (19, PRE_ACCEPT));
    again(&mut drive).unwrap();
    assert_eq!((drive.ballot, drive.phase, drive.seen), (24, PREPARE, 19));
    assert!(drive.answers.iter().all(Option::is_none));
    again(&mut drive).unwrap();
    assert_eq!(drive.ballot, 32);
    start(&mut drive, 0, 8, &ours()).unwrap();
    assert_eq!((drive.ballot, drive.phase, drive.seen), (0, PRE_ACCEPT, 0));
}

#[test]
fn done_ends_any_phase_with_its_set() {
    let done = Message::Done { t: 8, pieces: ours(), set: set([64, 0, 0, 0]) };
    for mut drive in [started(), recovered(5, 0)] {
        hear(&mut drive, done);
        assert_eq!((drive.phase, drive.set), (COMMIT, Some(set([64, 0, 0, 0]))));
    }
}
