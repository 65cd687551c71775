//! The states and messages that are measured, made through plain Rust.

use engine::image::{drive_image, server_image};
use engine::layout;
use model::cluster::only;
use model::pieces::ADD;
use model::{ballots, codec, drive, server, Drive, Message, Piece, Pieces, Server, Set};

/// Adds, half of them on shard 0 and half on shard 1, by the lowest keys.
pub fn pieces(many: u32) -> Pieces {
    let half = many / 2;
    let piece = |place| Piece { shard: place / half, key: place % half, kind: ADD, operand: 1 };
    Pieces::of(&(0..many).map(piece).collect::<Vec<_>>())
}

/// What is asked of a server, the state before, and the message as bytes.
pub struct Step {
    pub name: String,
    pub before: layout::Server,
    pub message: Vec<u8>,
}

impl Step {
    fn of(name: String, before: &Server, message: &Message) -> Step {
        Step { name, before: server_image(before), message: codec::bytes_of(message).expect("a good message") }
    }
}

/// All numbers below `t`, at both shards.
fn lower(t: u32) -> Set {
    Set([only(t) - 1, only(t) - 1, 0, 0])
}

/// Server 0 with the numbers below `ran`: each arrived, is committed with all lower ones before it, and has run.
fn server(ran: u32, pieces: Pieces) -> Server {
    let mut state = Server::fresh(0).expect("a server");
    for t in 0..ran {
        taken(&mut state, &[Message::PreAccept { t, ballot: 0, pieces }, Message::Commit { t, pieces, set: lower(t) }]);
    }
    state
}

/// Server 0 holds this many numbers once the step is done. All conflict, and each but the last arrived, is committed with all lower ones before it, and has run. The step is about the last.
pub fn steps(held: u32, many: u32) -> Vec<Step> {
    let (t, pieces) = (held - 1, pieces(many));
    let mut state = server(t, pieces);
    let step = |name, before: &Server, message| {
        Step::of(format!("{name}, {held} held, {many} pieces each"), before, &message)
    };
    let pre_accept = Message::PreAccept { t, ballot: 0, pieces };
    let first = step("PreAccept, first", &state, pre_accept);
    taken(&mut state, &[pre_accept]);
    let repeat = step("PreAccept, repeat", &state, pre_accept);
    taken(&mut state, &[Message::Accept { t, ballot: 0, pieces, set: lower(t) }]);
    let ballot = ballots::next(0, 0).expect("a ballot");
    vec![first, repeat, step("Prepare", &state, Message::Prepare { t, ballot, pieces })]
}

/// Commits at server 0, which holds this many numbers: one that waits for a number that is not committed, and one that runs itself. All others have run, but for the one that is waited for.
pub fn commits(held: u32, many: u32) -> [Step; 2] {
    let (t, pieces) = (held - 1, pieces(many));
    let awaited = if t == 0 { 63 } else { t - 1 };
    let mut state = server(t.saturating_sub(1), pieces);
    taken(&mut state, &[Message::PreAccept { t: awaited, ballot: 0, pieces }, Message::PreAccept { t, ballot: 0, pieces }]);
    let set = Set([lower(t).0[0] | only(awaited), 0, 0, 0]);
    let waits = Step::of(format!("waits, {held} held, {many} pieces each"), &state, &Message::Commit { t, pieces, set });
    let mut state = server(t, pieces);
    taken(&mut state, &[Message::PreAccept { t, ballot: 0, pieces }]);
    [waits, Step::of(format!("runs itself, {held} held, {many} pieces each"), &state, &Message::Commit { t, pieces, set: lower(t) })]
}

/// The last Commit of 64: of a cycle, which then runs as one group, and of a chain, which then runs number by number.
pub fn last_commits() -> [Step; 2] {
    let pieces = pieces(2);
    let commit = |t: u32, word: u64| Message::Commit { t, pieces, set: Set([word, 0, 0, 0]) };
    let mut cycle = Server::fresh(0).expect("a server");
    let mut chain = cycle.clone();
    for t in 0..63 {
        taken(&mut cycle, &[commit(t, !only(t))]);
        taken(&mut chain, &[commit(t + 1, only(t))]);
    }
    [
        Step::of("closes a cycle of 64".to_string(), &cycle, &commit(63, !only(63))),
        Step::of("lets a chain of 64 run".to_string(), &chain, &commit(0, 0)),
    ]
}

/// Server 0 with all 64 numbers committed and none run, each with this word before it: a lent state, for a run alone.
pub fn committed(word: fn(u32) -> u64) -> layout::Server {
    let mut state = Server::fresh(0).expect("a server");
    for (t, record) in (0..).zip(&mut state.records) {
        (record.pieces, record.committed) = (Some(pieces(2)), Some(Set([word(t), 0, 0, 0])));
    }
    server_image(&state)
}

/// Each before all others.
pub fn cycle() -> layout::Server {
    committed(|t| !only(t))
}

/// Each right after the number below it.
pub fn chain() -> layout::Server {
    committed(|t| only(t) >> 1)
}

fn taken(server: &mut Server, messages: &[Message]) {
    for message in messages {
        server::step(server, message).expect("a good message");
    }
}

/// A drive in phase 1 that has so many of its six answers, and the next one.
pub fn awaiting(answers: u32, many: u32) -> (layout::Drive, Vec<u8>) {
    let reply = |server| Message::PreAcceptOk { t: 8, server, ballot: 0, word: 0xff };
    let mut state = Drive::default();
    drive::start(&mut state, 0, 8, &pieces(many)).expect("a good start");
    for server in 0..answers {
        drive::reply(&mut state, &reply(server)).expect("a good reply");
    }
    (drive_image(&state), codec::bytes_of(&reply(answers)).expect("a good message"))
}
