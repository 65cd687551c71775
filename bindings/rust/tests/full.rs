//! A counter at its end says so: case H with its reads, what a put clears, and the mark in what is persisted.

use drobulets::{Message, Piece, Refusal, Server, Set, Value, KEYS};

const KEY: u32 = 5;
/// Where the mark of the counter stands in the bytes.
const MARK: usize = 19_464 + 8 * KEY as usize + 4;

const fn good(value: i32) -> Value {
    Value { value, kept: false }
}

const fn kept(value: i32) -> Value {
    Value { value, kept: true }
}

fn read() -> Piece {
    Piece::read(0, KEY)
}

fn put(operand: i32) -> Piece {
    Piece::put(0, KEY, operand)
}

fn add(operand: i32) -> Piece {
    Piece::add(0, KEY, operand)
}

/// The next number has these pieces; it is committed and runs. Gives its results, which a Fetch must tell too.
fn run(server: &mut Server, pieces: &[Piece]) -> Vec<Value> {
    let t = server.log().len() as u32;
    let reply = server.take_message(&Message::Commit { t, pieces: pieces.to_vec(), set: Set::EMPTY });
    assert_eq!(reply, Ok(Message::CommitOk { t, server: server.id(), ran: 1 }));
    let values = server.results(t).unwrap();
    let fetched = server.take_message(&Message::Fetch { t }).unwrap();
    assert_eq!(fetched, Message::Results { t, server: server.id(), values: values.clone() });
    values
}

/// The same with one piece. Gives its result, and how the counter stands then.
fn then(server: &mut Server, piece: Piece) -> (Value, Value) {
    let results = run(server, &[piece]);
    let counter = server.counters()[KEY as usize];
    assert_eq!((results.len(), server.counter(KEY)), (1, Some(counter)));
    (results[0], counter)
}

fn fresh() -> Server {
    Server::fresh(0).unwrap()
}

/// A server whose counter is full at the top.
fn full_server() -> Server {
    let mut server = fresh();
    run(&mut server, &[put(i32::MAX)]);
    assert_eq!(run(&mut server, &[add(1)]), [kept(i32::MAX)]);
    server
}

#[test]
fn at_the_top() {
    let mut server = fresh();
    assert_eq!(then(&mut server, put(2_147_483_646)), (good(2_147_483_646), good(2_147_483_646)));
    assert_eq!(then(&mut server, add(1)), (good(2_147_483_647), good(2_147_483_647)));
    assert_eq!(then(&mut server, read()), (good(2_147_483_647), good(2_147_483_647)), "at its end, and not full");
    assert_eq!(then(&mut server, add(1)), (kept(2_147_483_647), kept(2_147_483_647)));
    assert_eq!(then(&mut server, read()), (kept(2_147_483_647), kept(2_147_483_647)));
}

#[test]
fn at_the_bottom() {
    let mut server = fresh();
    assert_eq!(then(&mut server, put(-2_147_483_648)), (good(-2_147_483_648), good(-2_147_483_648)));
    assert_eq!(then(&mut server, add(-1)), (kept(-2_147_483_648), kept(-2_147_483_648)));
    assert_eq!(then(&mut server, read()), (kept(-2_147_483_648), kept(-2_147_483_648)));
}

#[test]
fn far_from_its_end_too() {
    let mut server = fresh();
    then(&mut server, put(2_000_000_000));
    assert_eq!(then(&mut server, add(2_000_000_000)), (kept(2_000_000_000), kept(2_000_000_000)));
}

#[test]
fn a_full_counter_takes_no_add_that_would_fit() {
    let mut server = full_server();
    for operand in [-1, 0, 1, i32::MIN, i32::MAX] {
        assert_eq!(then(&mut server, add(operand)), (kept(i32::MAX), kept(i32::MAX)));
    }
}

#[test]
fn a_put_clears() {
    for operand in [i32::MAX, 7, 0] {
        let mut server = full_server();
        assert_eq!(then(&mut server, put(operand)), (good(operand), good(operand)));
        assert_eq!(then(&mut server, read()), (good(operand), good(operand)));
        assert_eq!(then(&mut server, add(-1)), (good(operand - 1), good(operand - 1)));
    }
}

#[test]
fn the_other_counters_and_pieces_go_on() {
    let mut server = full_server();
    let results =
        run(&mut server, &[Piece::add(0, KEY - 1, 3), add(1), Piece::add(0, KEY + 1, -4), Piece::add(1, KEY, 9)]);
    assert_eq!(results, [good(3), kept(i32::MAX), good(-4)]);
    for key in 0..KEYS {
        let here = match key {
            4 => good(3),
            5 => kept(i32::MAX),
            6 => good(-4),
            _ => good(0),
        };
        assert_eq!(server.counter(key), Some(here));
        assert_eq!(server.counters()[key as usize], here);
    }
}

#[test]
fn the_mark_is_persisted() {
    let mut server = full_server();
    let bytes = server.to_bytes();
    assert_eq!(bytes[MARK - 4..MARK + 4], [0xFF, 0xFF, 0xFF, 0x7F, 1, 0, 0, 0]);
    let mut restarted = Server::from_bytes(&bytes).unwrap();
    assert_eq!((&restarted, restarted.to_bytes()), (&server, bytes));
    for piece in [read(), add(-1), put(3), add(1)] {
        assert_eq!(then(&mut restarted, piece), then(&mut server, piece));
    }
    assert_eq!((&restarted, restarted.counter(KEY)), (&server, Some(good(4))));
    assert_eq!(server.to_bytes()[MARK..MARK + 4], [0; 4]);
}

/// The mark is a number, and any but 0 is set. An add leaves the number as it is.
#[test]
fn any_other_number_than_1_reads_as_kept_too() {
    for mark in [2, 256, 1 << 24, u32::MAX] {
        let mut bytes = full_server().to_bytes();
        bytes[MARK..MARK + 4].copy_from_slice(&mark.to_le_bytes());
        let mut server = Server::from_bytes(&bytes).unwrap();
        assert_eq!((server.counter(KEY), server.counters()[KEY as usize]), (Some(kept(i32::MAX)), kept(i32::MAX)));
        assert_eq!(server.to_bytes(), bytes);
        assert_eq!(then(&mut server, add(-1)), (kept(i32::MAX), kept(i32::MAX)));
        assert_eq!(then(&mut server, read()), (kept(i32::MAX), kept(i32::MAX)));
        assert_eq!(server.to_bytes()[MARK..MARK + 4], mark.to_le_bytes());
        assert_eq!(then(&mut server, put(0)), (good(0), good(0)));
        assert_eq!(server.to_bytes()[MARK..MARK + 4], [0; 4]);
    }
}

/// A server's state of version 0.1.0 had no marks, and 64 bytes less.
#[test]
fn a_state_without_marks_is_refused() {
    assert_eq!(Server::from_bytes(&[0; 19_792]), Err(Refusal::BytesShort));
}
