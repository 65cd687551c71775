//! Whole exchanges over two shards with six servers, through the crate alone.

use drobulets::{layout::Numbers, servers_of, Drive, Message, Phase, Piece, Refusal, Server, Set, Value};

/// Five spares of kind 3 go from shard 0 to shard 1.
const MOVE: [Piece; 2] = [Piece::add(0, 3, -5), Piece::add(1, 3, 5)];
/// What stands there is counted, and one part is taken at shard 0.
const TAKE: [Piece; 2] = [Piece::add(0, 3, -1), Piece::read(1, 3)];

fn six_servers() -> Vec<Server> {
    (0..6).map(|id| Server::fresh(id).unwrap()).collect()
}

/// Sends what is due to those named, and gives their replies to the drive. A reply that is not awaited is dropped.
fn send(drive: &mut Drive, servers: &mut [Server], reached: &[u32]) {
    let due = drive.due().unwrap();
    assert_eq!(due.servers, [0, 1, 2, 3, 4, 5]);
    for server in reached {
        let reply = servers[*server as usize].take(&due.bytes).unwrap();
        match drive.take(&reply) {
            Ok(()) | Err(Refusal::Misplaced) => {}
            Err(refusal) => panic!("{refusal}"),
        }
    }
}

/// The Commit of a decided drive reaches those named, and so many numbers run at each.
fn commit(drive: &Drive, servers: &mut [Server], reached: &[u32], ran: u32) {
    assert_eq!(drive.phase(), Phase::Commit);
    let due = drive.due().unwrap();
    for id in reached {
        let reply = Message::decode(&servers[*id as usize].take(&due.bytes).unwrap());
        assert_eq!(reply, Ok(Message::CommitOk { t: drive.t(), server: *id, ran }));
    }
}

/// The three servers of each shard have the same log and counters, marks included. Gives counter 3 of both shards, which is not full.
fn spares(servers: &[Server]) -> [i32; 2] {
    [0, 1].map(|shard| {
        let [a, b, c] = [0, 1, 2].map(|replica| &servers[servers_of(shard).start as usize + replica]);
        assert_eq!((a.counters(), a.log()), (b.counters(), b.log()));
        assert_eq!((a.counters(), a.log()), (c.counters(), c.log()));
        assert_eq!(a.shard(), shard);
        let Value { value, kept } = a.counter(3).unwrap();
        assert!(!kept);
        value
    })
}

const ALL: [u32; 6] = [0, 1, 2, 3, 4, 5];

#[test]
fn an_exchange_decides_at_once_and_runs_at_six_servers() {
    let mut servers = six_servers();
    let mut drive = Drive::start(0, 8, &MOVE).unwrap();
    assert_eq!((drive.t(), drive.coordinator(), drive.ballot(), drive.phase()), (8, 0, 0, Phase::PreAccept));
    assert_eq!(drive.pieces(), MOVE);
    send(&mut drive, &mut servers, &[0, 3]);
    assert_eq!(drive.answered(), [0, 3]);
    send(&mut drive, &mut servers, &ALL);
    assert_eq!((drive.phase(), drive.chosen()), (Phase::Commit, Some(Set::EMPTY)));
    assert!(servers.iter().all(|server| !server.has_run(8) && server.results(8).is_none()));
    commit(&drive, &mut servers, &ALL, 1);
    assert_eq!(spares(&servers), [-5, 5]);
    assert_eq!(servers[4].results(8), Some(vec![Value { value: 5, kept: false }]));
    assert_eq!((servers[4].result(8, 0), servers[4].result(8, 1)), (Some(Value { value: 5, kept: false }), None));
    assert_eq!((servers[4].counter(15), servers[4].counter(16)), (Some(Value { value: 0, kept: false }), None));
    let fetched = servers[1].take_message(&Message::Fetch { t: 8 }).unwrap();
    assert_eq!(fetched, Message::Results { t: 8, server: 1, values: vec![Value { value: -5, kept: false }] });
}

#[test]
fn two_of_three_are_enough_to_move_on() {
    let mut servers = six_servers();
    let mut drive = Drive::start(0, 8, &MOVE).unwrap();
    send(&mut drive, &mut servers, &[0, 1, 4]);
    assert_eq!(drive.move_on(), Err(Refusal::Undecided));
    send(&mut drive, &mut servers, &[5]);
    drive.move_on().unwrap();
    assert_eq!((drive.phase(), drive.chosen()), (Phase::Accept, Some(Set::EMPTY)));
    send(&mut drive, &mut servers, &[1, 2, 3, 5]);
    commit(&drive, &mut servers, &ALL, 1);
    assert_eq!(spares(&servers), [-5, 5]);
}

/// The origin of T8 is gone when its Accept has reached one server of each shard. Coordinator 1 recovers T8, while T1 waits for it.
#[test]
fn a_half_delivered_exchange_is_recovered() {
    let mut servers = six_servers();
    let mut lost = Drive::start(0, 8, &MOVE).unwrap();
    send(&mut lost, &mut servers, &[0, 1, 3, 4]);
    lost.move_on().unwrap();
    send(&mut lost, &mut servers, &[0, 3]);
    assert_eq!(lost.phase(), Phase::Accept);

    let mut later = Drive::start(1, 1, &TAKE).unwrap();
    send(&mut later, &mut servers, &ALL);
    assert_eq!(later.phase(), Phase::Accept);
    assert_eq!(later.chosen(), Some(Set::from([256, 256, 0, 0])));
    send(&mut later, &mut servers, &ALL);
    commit(&later, &mut servers, &ALL, 0);
    assert_eq!(spares(&servers), [0, 0]);
    let wanted = servers[0].wanted().unwrap();
    assert_eq!(wanted.numbers().collect::<Vec<_>>(), [(0, 8), (1, 8)]);
    let inquired = servers[1].take_message(&Message::Inquire { t: 8 }).unwrap();
    assert_eq!(inquired, Message::NotYet { t: 8, server: 1 });

    let mut recovery = Drive::recover(1, 8, &MOVE, 0).unwrap();
    assert_eq!((recovery.ballot(), recovery.phase()), (9, Phase::Prepare));
    send(&mut recovery, &mut servers, &[0, 2, 3, 5]);
    recovery.move_on().unwrap();
    assert_eq!((recovery.phase(), recovery.chosen()), (Phase::Accept, Some(Set::EMPTY)));
    send(&mut lost, &mut servers, &[0, 1, 2]); // the origin is back with its old ballot
    assert_eq!((lost.phase(), lost.seen()), (Phase::Accept, 9));
    send(&mut recovery, &mut servers, &[0, 1, 3, 4]);
    commit(&recovery, &mut servers, &[0, 2, 3, 4], 2);
    commit(&recovery, &mut servers, &[0, 2, 3, 4], 0); // a repeat

    let done = servers[0].take_message(&Message::Inquire { t: 8 }).unwrap();
    assert_eq!(done, Message::Done { t: 8, pieces: MOVE.to_vec(), set: Set::EMPTY });
    for late in [1, 5] {
        let reply = servers[late].take_message(&done);
        assert_eq!(reply, Ok(Message::CommitOk { t: 8, server: late as u32, ran: 2 }));
    }
    assert_eq!(spares(&servers), [-6, 5]);
    assert_eq!(servers[5].log(), [8, 1]);
    assert_eq!(servers[5].results(1), Some(vec![Value { value: 5, kept: false }]));

    lost.again().unwrap();
    assert_eq!((lost.ballot(), lost.phase()), (16, Phase::Prepare));
    send(&mut lost, &mut servers, &[2]);
    assert_eq!((lost.phase(), lost.chosen()), (Phase::Commit, Some(Set::EMPTY)));
    commit(&lost, &mut servers, &ALL, 0);
}

#[test]
fn servers_and_drives_come_back_from_their_bytes() {
    let mut servers = six_servers();
    let mut drive = Drive::start(0, 8, &MOVE).unwrap();
    send(&mut drive, &mut servers, &[0, 1, 3]);
    let mut restarted: Vec<Server> = servers.iter().map(|s| Server::from_bytes(&s.to_bytes()).unwrap()).collect();
    let mut same_drive = Drive::from_bytes(&drive.to_bytes()).unwrap();
    assert_eq!((&restarted, &same_drive), (&servers, &drive));
    for (drive, servers) in [(&mut drive, &mut servers), (&mut same_drive, &mut restarted)] {
        send(drive, servers, &ALL);
        commit(drive, servers, &ALL, 1);
        assert_eq!(spares(servers), [-5, 5]);
    }
    assert_eq!((&restarted, &same_drive), (&servers, &drive));
    assert_eq!(restarted[5].to_bytes(), servers[5].to_bytes());
}

/// The bytes are those of the C struct: numbers at the header's places, little-endian.
#[test]
fn bytes_stand_where_the_header_says() {
    let mut servers = six_servers();
    let mut drive = Drive::start(0, 8, &MOVE).unwrap();
    send(&mut drive, &mut servers, &ALL);
    commit(&drive, &mut servers, &ALL, 1);
    let (server, drive) = (servers[5].to_bytes(), drive.to_bytes());
    let number = |bytes: &[u8], at: usize| u32::from_le_bytes([bytes[at], bytes[at + 1], bytes[at + 2], bytes[at + 3]]);
    assert_eq!((server.len(), drive.len()), (19_856, 968));
    assert_eq!((server.len(), drive.len()), (Server::BYTES, Drive::BYTES));
    assert_eq!((number(&server, 0), number(&server, 4)), (5, 0));
    assert_eq!(number(&server, 8 + 8 * 304 + 128), 2);
    assert_eq!((number(&server, 19_464 + 3 * 8), number(&server, 19_464 + 3 * 8 + 4)), (5, 0));
    assert_eq!((number(&server, 19_592), number(&server, 19_592 + 256)), (8, 1));
    assert_eq!((number(&drive, 0), number(&drive, 12), number(&drive, 920)), (8, 3, 1));
}

#[test]
fn damaged_bytes_are_refused() {
    let (server, drive) = (Server::fresh(3).unwrap().to_bytes(), Drive::start(0, 8, &MOVE).unwrap().to_bytes());
    assert_eq!(Server::from_bytes(&server[1..]), Err(Refusal::BytesShort));
    assert_eq!(Drive::from_bytes(&[]), Err(Refusal::BytesShort));
    assert_eq!(Server::from_bytes(&[&server[..], &[0]].concat()), Err(Refusal::BytesLeft));
    assert_eq!(Drive::from_bytes(&[&drive[..], &[0]].concat()), Err(Refusal::BytesLeft));
    let damaged = |bytes: &[u8], at: usize| [&bytes[..at], &[0xFF], &bytes[at + 1..]].concat();
    assert_eq!(Server::from_bytes(&damaged(&server, 0)), Err(Refusal::BadState));
    assert_eq!(Server::from_bytes(&damaged(&server, 19_592 + 256)), Err(Refusal::BadState));
    assert_eq!(Drive::from_bytes(&damaged(&drive, 12)), Err(Refusal::BadState));
    assert_eq!(Drive::from_bytes(&[0; Drive::BYTES]), Err(Refusal::BadState));
    assert_eq!(Server::from_bytes(&damaged(&server, 5)), Ok(Server::fresh(3).unwrap()), "between the fields");
}

#[test]
fn every_number_of_a_state_is_stored() {
    let (mut server, mut drive) = (*Server::fresh(3).unwrap().state(), *Drive::start(0, 8, &MOVE).unwrap().state());
    assert_eq!(server.many(), 1 + 64 * (33 + 1 + 2 + 6 + 5 + 1 + 17) + 2 * 16 + 65);
    assert_eq!(drive.many(), 4 + 33 + 12 * (1 + 2 + 6) + 5 + 1);
}

/// A thread with little more than the header's stack is enough for every call.
#[test]
fn a_small_stack_is_enough() {
    let room = drobulets::STACK + 128 * 1024;
    let exchange = || an_exchange_decides_at_once_and_runs_at_six_servers();
    std::thread::Builder::new().stack_size(room).spawn(exchange).unwrap().join().unwrap();
}
