//! Every refusal, reached and printed; and what was refused has changed nothing.

use drobulets::{layout, next_ballot, raw, Drive, Message, Phase, Piece, Refusal, Server, Set, LONGEST};
use std::fmt::Debug;

const PUT: Piece = Piece::put(0, 3, 5);
const EIGHT: Piece = Piece::put(0, 8, 1);

fn pre_accept(t: u32, ballot: u32, pieces: &[Piece]) -> Message {
    Message::PreAccept { t, ballot, pieces: pieces.to_vec() }
}

fn commit(t: u32, pieces: &[Piece], set: Set) -> Message {
    Message::Commit { t, pieces: pieces.to_vec(), set }
}

/// A server of shard 0 that has promised T8, and has committed and run T1.
fn busy_server() -> Server {
    let mut server = Server::fresh(0).unwrap();
    server.take_message(&pre_accept(8, 16, &[PUT])).unwrap();
    server.take_message(&commit(1, &[EIGHT], Set::EMPTY)).unwrap();
    server
}

/// A drive for T8 that one server has answered.
fn busy_drive() -> Drive {
    let mut drive = Drive::start(0, 8, &[PUT]).unwrap();
    drive.take_message(&Message::PreAcceptOk { t: 8, server: 0, ballot: 0, word: 0 }).unwrap();
    drive
}

/// What came of a refused call, which must have left the state as it was.
fn refused<S: Clone + PartialEq + Debug, T: Debug>(
    state: &S,
    call: impl FnOnce(&mut S) -> Result<T, Refusal>,
) -> Refusal {
    let mut lent = state.clone();
    let refusal = call(&mut lent).unwrap_err();
    assert_eq!(lent, *state);
    refusal
}

/// What came of bytes that a server refuses, which must have left it and the output as they were.
fn refused_bytes(server: &Server, bytes: &[u8], room: usize) -> Refusal {
    let mut output = vec![0x5A; room];
    let refusal = refused(server, |server| server.take_into(bytes, &mut output));
    assert!(output.iter().all(|byte| *byte == 0x5A));
    refusal
}

#[test]
fn a_server_refuses() {
    let server = busy_server();
    let refused = |message: Message| refused_bytes(&server, &message.encode().unwrap(), LONGEST);
    assert_eq!(refused(Message::Inquire { t: 64 }), Refusal::BadNumber);
    assert_eq!(refused(Message::Prepare { t: 9, ballot: 0, pieces: vec![PUT] }), Refusal::BadNumber);
    assert_eq!(refused(pre_accept(9, 0, &[])), Refusal::BadPieces);
    assert_eq!(refused(pre_accept(9, 0, &[EIGHT, PUT])), Refusal::BadPieces);
    assert_eq!(refused(commit(63, &[PUT], Set::from([1 << 63, 0, 0, 0]))), Refusal::BadSet);
    assert_eq!(refused(commit(63, &[PUT], Set::from([0, 1, 0, 0]))), Refusal::BadSet);
    assert_eq!(refused(pre_accept(9, 0, &[Piece::put(1, 3, 5)])), Refusal::Untouched);
    assert_eq!(refused(pre_accept(8, 16, &[EIGHT])), Refusal::OtherPieces);
    assert_eq!(refused(commit(1, &[EIGHT], Set::from([4, 0, 0, 0]))), Refusal::OtherSet);
    assert_eq!(refused(Message::CommitOk { t: 1, server: 0, ran: 1 }), Refusal::NotTaken);

    let bytes = pre_accept(8, 16, &[PUT]).encode().unwrap();
    assert_eq!(refused_bytes(&server, &bytes[..bytes.len() - 1], LONGEST), Refusal::BytesShort);
    assert_eq!(refused_bytes(&server, &[&bytes[..], &[0]].concat(), LONGEST), Refusal::BytesLeft);
    assert_eq!(refused_bytes(&server, &[0, 0, 0, 6], LONGEST), Refusal::NotTaken);
    assert_eq!(refused_bytes(&server, &bytes, 23), Refusal::OutputShort);
    let bytes = commit(2, &[PUT], Set::EMPTY).encode().unwrap();
    assert_eq!(refused_bytes(&server, &bytes, 15), Refusal::OutputShort);
    assert_eq!(refused_bytes(&server, &[], 0), Refusal::BytesShort);
    assert_eq!(Server::fresh(12), Err(Refusal::BadNumber));
}

#[test]
fn a_drive_refuses() {
    let drive = busy_drive();
    let told = |drive: &Drive, reply: Message| refused(drive, |drive| drive.take_message(&reply));
    assert_eq!(refused(&drive, Drive::move_on), Refusal::Undecided);
    assert_eq!(told(&drive, Message::PreAcceptOk { t: 8, server: 0, ballot: 0, word: 0 }), Refusal::Misplaced);
    assert_eq!(told(&drive, Message::PreAcceptOk { t: 8, server: 3, ballot: 0, word: 0 }), Refusal::Misplaced);
    assert_eq!(told(&drive, Message::AcceptOk { t: 9, server: 1, ballot: 0 }), Refusal::Misplaced);
    assert_eq!(told(&drive, Message::PreAcceptOk { t: 8, server: 1, ballot: 0, word: 256 }), Refusal::BadSet);
    assert_eq!(told(&drive, Message::PreAcceptOk { t: 64, server: 1, ballot: 0, word: 0 }), Refusal::BadNumber);
    assert_eq!(told(&drive, Message::Done { t: 8, pieces: vec![], set: Set::EMPTY }), Refusal::BadPieces);
    assert_eq!(told(&drive, Message::Done { t: 8, pieces: vec![EIGHT], set: Set::EMPTY }), Refusal::OtherPieces);
    assert_eq!(told(&drive, Message::CommitOk { t: 8, server: 1, ran: 1 }), Refusal::NotTaken);
    assert_eq!(refused(&drive, |drive| drive.take(&[0, 0])), Refusal::BytesShort);
    let long = Message::AcceptOk { t: 8, server: 1, ballot: 0 }.encode().unwrap();
    assert_eq!(refused(&drive, |drive| drive.take(&[&long[..], &[0]].concat())), Refusal::BytesLeft);

    let mut output = [0x5A; 31];
    assert_eq!(drive.due_into(&mut output), Err(Refusal::OutputShort));
    assert_eq!(output, [0x5A; 31]);

    let mut done = drive;
    done.take_message(&Message::Done { t: 8, pieces: vec![PUT], set: Set::EMPTY }).unwrap();
    assert_eq!(done.phase(), Phase::Commit);
    assert_eq!(refused(&done, Drive::again), Refusal::Misplaced);
    assert_eq!(refused(&done, Drive::move_on), Refusal::Misplaced);

    let last = Drive::recover(0, 8, &[PUT], 65_527).unwrap();
    assert_eq!(last.ballot(), 65_528);
    assert_eq!(refused(&last, Drive::again), Refusal::NoBallot);
}

#[test]
fn a_drive_is_not_made() {
    assert_eq!(Drive::start(1, 8, &[PUT]), Err(Refusal::BadNumber));
    assert_eq!(Drive::start(0, 8, &[]), Err(Refusal::BadPieces));
    assert_eq!(Drive::start(0, 8, &[PUT; 9]), Err(Refusal::NotTaken));
    assert_eq!(Drive::recover(8, 8, &[PUT], 0), Err(Refusal::BadNumber));
    assert_eq!(Drive::recover(1, 8, &[PUT, PUT], 0), Err(Refusal::BadPieces));
    assert_eq!(Drive::recover(1, 8, &[PUT; 9], 0), Err(Refusal::NotTaken));
    assert_eq!(Drive::recover(1, 8, &[PUT], u32::MAX), Err(Refusal::NoBallot));
    assert_eq!(next_ballot(8, 0), Err(Refusal::BadNumber));
    assert_eq!(next_ballot(1, 65_529), Err(Refusal::NoBallot));
}

/// States out of form can be lent through `raw` alone: 13, and nothing is changed.
#[test]
fn a_state_out_of_form_is_refused() {
    let broken = layout::Server { id: 12, ..*busy_server().state() };
    let bytes = Message::Inquire { t: 1 }.encode().unwrap();
    let (mut server, mut output) = (broken, [0x5A; LONGEST]);
    assert_eq!(raw::server_take(&mut server, &bytes, &mut output).refusal, 13);
    assert_eq!((raw::server_run(&mut server).refusal, raw::server_run_all(&mut server).refusal), (13, 13));
    assert_eq!(raw::server_wanted(&server).refusal, 13);
    assert!(server == broken && output == [0x5A; LONGEST]);

    let blank = layout::Drive::default();
    let mut drive = blank;
    assert_eq!(raw::drive_again(&mut drive), 13);
    assert_eq!(raw::drive_move_on(&mut drive), 13);
    assert_eq!(raw::drive_take(&mut drive, &Message::AcceptOk { t: 0, server: 0, ballot: 0 }.encode().unwrap()), 13);
    assert_eq!(raw::drive_due(&drive, &mut output).refusal, 13);
    assert_eq!(raw::drive_start(&mut drive, 1, 8, [PUT][..].into()), 1);
    assert!(drive == blank && output == [0x5A; LONGEST]);
}

/// Each number of document 01 once, in order.
#[test]
fn every_refusal_is_reached_and_prints_what_it_means() {
    let (mut server, mut drive) = (busy_server(), busy_drive());
    let mut ask = |message: Message| server.take_message(&message).unwrap_err();
    let reached = [
        ask(Message::Inquire { t: 64 }),
        ask(pre_accept(9, 0, &[])),
        ask(commit(63, &[PUT], Set::from([1 << 63, 0, 0, 0]))),
        ask(pre_accept(9, 0, &[Piece::put(1, 3, 5)])),
        ask(pre_accept(8, 16, &[EIGHT])),
        ask(commit(1, &[EIGHT], Set::from([4, 0, 0, 0]))),
        drive.move_on().unwrap_err(),
        drive.take_message(&Message::AcceptOk { t: 9, server: 1, ballot: 0 }).unwrap_err(),
        next_ballot(1, 65_529).unwrap_err(),
        Message::decode(&[0, 0, 0]).unwrap_err(),
        Message::decode(&[0, 0, 0, 4, 0, 0, 0, 9, 0]).unwrap_err(),
        Message::decode(&[0, 0, 0, 6]).unwrap_err(),
        Drive::from_bytes(&[0; Drive::BYTES]).unwrap_err(),
        Message::Inquire { t: 9 }.encode_into(&mut [0; 7]).unwrap_err(),
    ];
    assert_eq!(reached, Refusal::ALL);
    let mut said = Vec::new();
    for (number, refusal) in (1..).zip(reached) {
        assert_eq!((refusal.number(), Refusal::numbered(number)), (number, Some(refusal)));
        let words = refusal.to_string();
        println!("{words}");
        let meaning = words.strip_prefix(&format!("refused {number}: ")).unwrap().to_string();
        assert!(meaning.split(' ').count() > 4 && !said.contains(&meaning));
        said.push(meaning);
    }
}

/// The archive gives no other number. If one comes all the same, it is an error that names it.
#[test]
fn a_number_that_is_none_is_an_error_of_its_own() {
    assert_eq!(Refusal::numbered(0), None);
    for number in [15, 4_000_000_000] {
        let refusal = Refusal::numbered(number).unwrap();
        assert_eq!((refusal, refusal.number()), (Refusal::Unlisted(number), number));
        assert_eq!(
            refusal.to_string(),
            format!("refused {number}: no refusal has this number, so another archive was linked")
        );
    }
}
