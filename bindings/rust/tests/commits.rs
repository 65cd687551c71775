//! Commit and run are a single call: what a Commit or a Done runs, the count that its CommitOK has, and what a refusal leaves.

use drobulets::{Message, Piece, Refusal, Server, Set, Value, LONGEST, NUMBERS};

const PUT: Piece = Piece::put(0, 3, 5);
const ADD: Piece = Piece::add(0, 3, 2);

fn commit(t: u32, pieces: &[Piece], set: [u64; 4]) -> Message {
    Message::Commit { t, pieces: pieces.to_vec(), set: Set::from(set) }
}

/// The Done that says the same as a Commit.
fn done(commit: &Message) -> Message {
    match commit.clone() {
        Message::Commit { t, pieces, set } => Message::Done { t, pieces, set },
        other => panic!("{other:?} is no Commit"),
    }
}

fn fresh() -> Server {
    Server::fresh(0).unwrap()
}

/// Gives a server a Commit or a Done. Gives the count of its CommitOK; nothing is ready then.
fn ran(server: &mut Server, message: &Message) -> u32 {
    let many = match server.take_message(message) {
        Ok(Message::CommitOk { t, server: id, ran }) if (t, id) == (message.t(), server.id()) => ran,
        other => panic!("{message:?} is answered by {other:?}"),
    };
    let mut same = server.clone();
    assert_eq!((same.run(), same.run_all(), &same), (Ok(0), Ok(0), &*server));
    many
}

/// Case D: T8 and T1, each after the other.
fn cycle() -> [Message; 2] {
    [commit(8, &[PUT, Piece::put(1, 0, 5)], [0, 2, 0, 0]), commit(1, &[ADD, Piece::add(1, 0, 2)], [256, 0, 0, 0])]
}

/// Case F: T1, and T2 after it.
fn pair() -> [Message; 2] {
    [commit(1, &[PUT], [0; 4]), commit(2, &[ADD], [2, 0, 0, 0])]
}

/// A number of a chain: it comes after the one below it.
fn link(t: u32) -> Message {
    commit(t, &[ADD], [(1 << t) >> 1, 0, 0, 0])
}

/// A server as if nothing that it has committed had run. No call leaves such a one behind.
fn unrun(server: &Server) -> Server {
    let mut bytes = server.to_bytes();
    for t in 0..NUMBERS as usize {
        bytes[8 + 304 * t + 232..8 + 304 * (t + 1)].fill(0);
    }
    bytes[19_464..].fill(0);
    Server::from_bytes(&bytes).unwrap()
}

/// A server that has run both of case F, and the same with both still to be run.
fn ready_pair() -> (Server, Server) {
    let mut server = fresh();
    assert_eq!(pair().map(|message| ran(&mut server, &message)), [1, 1]);
    let ready = unrun(&server);
    assert_eq!((ready.log(), ready.counter(3)), (vec![], Some(Value { value: 0, kept: false })));
    (server, ready)
}

#[test]
fn the_count_stands_at_the_end_of_sixteen_bytes() {
    let reply = fresh().take(&pair()[0].encode().unwrap()).unwrap();
    assert_eq!(reply, [0, 0, 0, 18, 0, 0, 0, 1, 0, 0, 0, 0, 0, 0, 0, 1]);
    let most = Message::CommitOk { t: 63, server: 11, ran: 64 };
    assert_eq!(most.encode().unwrap(), [0, 0, 0, 18, 0, 0, 0, 63, 0, 0, 0, 11, 0, 0, 0, 64]);
    let without = [0, 0, 0, 18, 0, 0, 0, 63, 0, 0, 0, 11];
    assert_eq!(Message::decode(&without), Err(Refusal::BytesShort));
}

#[test]
fn case_d_runs_with_its_second_commit() {
    let mut server = fresh();
    let [first, second] = cycle();
    assert_eq!((ran(&mut server, &first), server.log()), (0, vec![]));
    assert_eq!((ran(&mut server, &second), server.log()), (2, vec![1, 8]));
    assert_eq!(server.counter(3), Some(Value { value: 5, kept: false }));
    assert_eq!(server.results(1), Some(vec![Value { value: 2, kept: false }]));
}

#[test]
fn case_e_waits() {
    let mut server = fresh();
    assert_eq!(ran(&mut server, &cycle()[0]), 0);
    assert_eq!(server.wanted(), Ok(Set::from([0, 2, 0, 0])));
    let fetched = server.take_message(&Message::Fetch { t: 8 });
    assert_eq!(fetched, Ok(Message::NotYet { t: 8, server: 0 }));
}

#[test]
fn case_f_runs_one_by_one_and_backwards_at_once() {
    let (mut forth, mut back) = (fresh(), fresh());
    let [first, second] = pair();
    assert_eq!([ran(&mut forth, &first), ran(&mut forth, &second)], [1, 1]);
    assert_eq!([ran(&mut back, &second), ran(&mut back, &first)], [0, 2]);
    assert_eq!((forth.log(), &forth), (vec![1, 2], &back));
}

#[test]
fn a_chain_of_all_numbers_runs_with_its_first() {
    let mut server = fresh();
    for t in (1..NUMBERS).rev() {
        assert_eq!(ran(&mut server, &link(t)), 0);
    }
    assert_eq!(ran(&mut server, &link(0)), 64);
    assert_eq!(server.log(), (0..NUMBERS).collect::<Vec<u32>>());
    assert_eq!(server.counter(3), Some(Value { value: 128, kept: false }));
    assert_eq!(server.results(40), Some(vec![Value { value: 82, kept: false }]));
}

#[test]
fn a_cycle_of_all_numbers_runs_with_its_last() {
    let mut server = fresh();
    let after_all = |t: u32| commit(t, &[ADD], [!(1 << t), 0, 0, 0]);
    for t in (1..NUMBERS).rev() {
        assert_eq!(ran(&mut server, &after_all(t)), 0);
    }
    assert_eq!(ran(&mut server, &after_all(0)), 64);
    assert_eq!(server.log(), (0..NUMBERS).collect::<Vec<u32>>());
}

#[test]
fn a_number_without_pieces_here_is_counted() {
    let mut server = fresh();
    let elsewhere = commit(4, &[Piece::put(1, 0, 5)], [0; 4]);
    let after_it = commit(5, &[ADD, Piece::add(1, 0, 2)], [0, 16, 0, 0]);
    assert_eq!(ran(&mut server, &after_it), 0);
    assert_eq!(ran(&mut server, &elsewhere), 2);
    assert_eq!((server.log(), server.results(4)), (vec![4, 5], Some(vec![])));
}

#[test]
fn a_done_is_taken_as_a_commit() {
    let chain = (0..9).rev().map(link);
    for messages in [cycle().to_vec(), pair().to_vec(), chain.collect()] {
        let (mut told, mut learned) = (fresh(), fresh());
        for commit in messages {
            assert_eq!(ran(&mut learned, &done(&commit)), ran(&mut told, &commit));
            assert_eq!(learned, told);
        }
        assert!(!told.log().is_empty());
    }
}

#[test]
fn a_repeat_runs_nothing() {
    let (server, _) = ready_pair();
    for message in pair() {
        let mut repeated = server.clone();
        assert_eq!((ran(&mut repeated, &message), ran(&mut repeated, &done(&message))), (0, 0));
        assert_eq!(repeated, server);
    }
}

/// A repeat changes nothing by itself; but what is ready in the lent state runs.
#[test]
fn a_repeat_runs_what_is_ready() {
    let (server, ready) = ready_pair();
    for message in pair() {
        for message in [done(&message), message] {
            let mut repeated = ready.clone();
            assert_eq!(ran(&mut repeated, &message), 2);
            assert_eq!(repeated, server);
        }
    }
}

#[test]
fn a_commit_runs_what_else_is_ready() {
    let (_, ready) = ready_pair();
    let mut server = ready.clone();
    assert_eq!(ran(&mut server, &commit(0, &[Piece::put(0, 9, 1)], [0; 4])), 3);
    assert_eq!(server.log(), [0, 1, 2]);
    let mut server = ready;
    assert_eq!(ran(&mut server, &commit(7, &[ADD], [1 << 63, 0, 0, 0])), 2);
    assert_eq!(server.log(), [1, 2]);
}

#[test]
fn no_other_message_runs_anything() {
    let (_, ready) = ready_pair();
    let pieces = vec![PUT];
    for message in [
        Message::PreAccept { t: 1, ballot: 0, pieces: pieces.clone() },
        Message::PreAccept { t: 9, ballot: 0, pieces: pieces.clone() },
        Message::Accept { t: 9, ballot: 0, pieces: pieces.clone(), set: Set::EMPTY },
        Message::Prepare { t: 9, ballot: 9, pieces },
        Message::Inquire { t: 1 },
        Message::Fetch { t: 1 },
    ] {
        let mut server = ready.clone();
        let reply = server.take_message(&message).unwrap();
        assert_ne!(reply.code(), 18);
        assert_eq!((server.log(), server.counters()), (vec![], ready.counters()), "{message:?}");
        assert_eq!(server.run_all(), Ok(2));
    }
}

#[test]
fn at_start_up_a_run_takes_one_group_and_the_runs_take_all() {
    let (server, ready) = ready_pair();
    let mut one_by_one = ready.clone();
    assert_eq!([one_by_one.run(), one_by_one.run(), one_by_one.run()], [Ok(1), Ok(1), Ok(0)]);
    let mut at_once = ready;
    assert_eq!([at_once.run_all(), at_once.run_all()], [Ok(2), Ok(0)]);
    assert_eq!((&one_by_one, &at_once), (&server, &server));
}

/// What is ready does not run where the Commit is refused.
#[test]
fn a_refused_commit_runs_nothing() {
    let (_, ready) = ready_pair();
    for (message, refusal) in [
        (commit(64, &[PUT], [0; 4]), Refusal::BadNumber),
        (commit(9, &[], [0; 4]), Refusal::BadPieces),
        (commit(9, &[PUT], [1 << 9, 0, 0, 0]), Refusal::BadSet),
        (commit(1, &[ADD], [0; 4]), Refusal::OtherPieces),
        (commit(1, &[PUT], [4, 0, 0, 0]), Refusal::OtherSet),
        (commit(2, &[ADD], [0; 4]), Refusal::OtherSet),
    ] {
        for message in [done(&message), message] {
            let mut server = ready.clone();
            assert_eq!((server.take_message(&message), &server), (Err(refusal), &ready), "{message:?}");
        }
    }
}

/// The CommitOK has 16 bytes: with less room nothing is committed and nothing runs.
#[test]
fn an_output_that_is_too_short_runs_nothing() {
    let (ran_both, ready) = ready_pair();
    for message in [pair()[0].clone(), done(&pair()[1]), commit(9, &[ADD], [0; 4])] {
        let bytes = message.encode().unwrap();
        for room in 0..16 {
            let (mut server, mut output) = (ready.clone(), vec![0x5A; room]);
            assert_eq!(server.take_into(&bytes, &mut output), Err(Refusal::OutputShort));
            assert!(server == ready && output.iter().all(|byte| *byte == 0x5A));
        }
        let (mut server, mut output) = (ready.clone(), [0x5A; LONGEST]);
        assert_eq!(server.take_into(&bytes, &mut output[..16]), Ok(16));
        assert!(output[16..].iter().all(|byte| *byte == 0x5A));
        assert!(server.log().starts_with(&ran_both.log()));
    }
}

/// One step to persist: what ran is in the bytes that are stored before the answer leaves.
#[test]
fn what_is_persisted_after_a_commit_has_all_that_ran() {
    let mut server = fresh();
    for message in cycle() {
        ran(&mut server, &message);
        let stored = server.to_bytes();
        let mut restarted = Server::from_bytes(&stored).unwrap();
        assert_eq!((restarted.run_all(), restarted.to_bytes()), (Ok(0), stored));
        assert_eq!((restarted.log(), restarted.counters()), (server.log(), server.counters()));
        server = restarted;
    }
    let fetched = server.take_message(&Message::Fetch { t: 8 });
    let values = vec![Value { value: 5, kept: false }];
    assert_eq!(fetched, Ok(Message::Results { t: 8, server: 0, values }));
}
