//! Prints the measured tables of docs/BENCH.md. Without an argument it only counts, for callgrind; the argument is the folder of the counts.

mod codec;
mod meter;
mod states;
mod whole;

use engine::archive::Archive;
use engine::{layout, Lent, Plain, LONGEST};
use meter::{head, line, Cost, Meter};
use states::{awaiting, chain, commits, cycle, last_commits, steps, Step};
use std::any::type_name;
use std::ffi::c_int;
use std::hint::black_box;
use std::mem::size_of;

extern "C" {
    fn stack_used(what: c_int, server: &mut layout::Server, input: *const u8, length: usize) -> usize;
}

/// A step and a run stay below this many bytes of stack.
const STACK_GOAL: usize = 5 * 1024;

fn main() {
    let meter = &Meter::new(std::env::args().nth(1));
    codec::measure(meter);
    head("A server's step", "Rust");
    for (held, many) in [(1, 2), (8, 2), (64, 2), (64, 8)] {
        let goal = if held == 64 { 1.1 } else { 1.4 };
        steps(held, many).iter().for_each(|step| stepped(meter, &step.name, Some(goal), step));
    }
    head("Commit and run in one call", "Rust");
    for (held, many) in [(1, 2), (8, 2), (64, 2), (64, 8)] {
        let goal = if held == 64 { 1.1 } else { 1.4 };
        commits(held, many).iter().for_each(|step| stepped(meter, &format!("Commit that {}", step.name), Some(goal), step));
    }
    for (step, goal) in last_commits().iter().zip([Some(0.5), None]) {
        stepped(meter, &format!("Commit that {}", step.name), goal, step);
    }
    head("Running", "Rust");
    for (name, goal, before, all) in
        [("run, 64 in one cycle", Some(0.5), cycle(), false), ("run until 0, a chain of 64", None, chain(), true)]
    {
        let library = || run(meter, Archive, name, &before, all);
        compare(meter, name, goal, library, || run(meter, Plain, name, &before, all));
    }
    head("A drive's reply step", "Rust");
    for (answers, what, many) in [(0, "first", 2), (5, "last", 2), (0, "first", 8), (5, "last", 8)] {
        let name = format!("PreAcceptOK, {what} of six, {many} pieces");
        let (before, message) = awaiting(answers, many);
        let library = || reply(meter, Archive, &name, &before, &message);
        compare(meter, &name, Some(1.5), library, || reply(meter, Plain, &name, &before, &message));
    }
    let server = chain();
    let copy = |to: &mut layout::Server| unsafe { std::ptr::copy_nonoverlapping(black_box(&server), black_box(to), 1) };
    let (copy, _) = meter.of("copy", 1, &cycle(), copy);
    if !meter.counting {
        println!("\nOne copy of a server: {:.0} ns, {:.0} instructions.", copy.nanoseconds, copy.instructions);
        stacks();
        transactions();
    }
}

/// A line for a call that must leave the same behind in both.
fn compare<T: PartialEq>(
    meter: &Meter,
    name: &str,
    goal: Option<f64>,
    library: impl Fn() -> (Cost, T),
    rust: impl Fn() -> (Cost, T),
) {
    let ((mut ours, left), (mut theirs, left_too)) = (library(), rust());
    assert!(left == left_too, "{name}: the two differ");
    for _ in meter.more_rounds() {
        (ours, theirs) = (ours.least(library().0), theirs.least(rust().0));
    }
    line(name, ours, theirs, goal);
}

/// A line for a message.
fn stepped(meter: &Meter, name: &str, goal: Option<f64>, step: &Step) {
    compare(meter, name, goal, || take(meter, Archive, name, step), || take(meter, Plain, name, step));
}

/// The cost of a call on a lent server, and the server after.
fn served<E: Lent>(
    meter: &Meter,
    engine: E,
    name: &str,
    before: &layout::Server,
    mut call: impl FnMut(&E, &mut E::Server),
) -> (Cost, model::Server) {
    let label = format!("{name} {}", type_name::<E>());
    let (cost, after) = meter.of(&label, 1, &engine.lend_server(before), |server| call(&engine, server));
    (cost, engine.see_server(&after))
}

fn take<E: Lent>(meter: &Meter, engine: E, name: &str, step: &Step) -> (Cost, (model::Server, Vec<u8>)) {
    let (mut answer, mut length) = ([0xA5; LONGEST], 0);
    let (cost, after) = served(meter, engine, name, &step.before, |engine, server| {
        length = engine.take(black_box(server), black_box(&step.message), &mut answer).expect("an answer");
    });
    (cost, (after, answer[..length].to_vec()))
}

fn run<E: Lent>(meter: &Meter, engine: E, name: &str, before: &layout::Server, all: bool) -> (Cost, model::Server) {
    served(meter, engine, name, before, |engine, server| {
        let ran = if all { engine.run_all(black_box(server)) } else { engine.run(black_box(server)) };
        assert_eq!(ran, Ok(64));
    })
}

fn reply<E: Lent>(meter: &Meter, engine: E, name: &str, before: &layout::Drive, reply: &[u8]) -> (Cost, model::Drive) {
    let label = format!("{name} {}", type_name::<E>());
    let (cost, after) = meter.of(&label, 1, &engine.lend_drive(before), |drive| {
        engine.reply(black_box(drive), black_box(reply)).expect("a good reply");
    });
    (cost, engine.see_drive(&after))
}

/// The greatest stack of take, run and run until 0 on the states above with 64 held, without what an empty thread uses.
fn stacks() {
    let used = |what, server: &layout::Server, input: &[u8]| {
        let of = |what| unsafe { stack_used(what, &mut server.clone(), input.as_ptr(), input.len()) };
        of(what) - of(0)
    };
    let stepped = steps(64, 8).into_iter().chain(steps(64, 2));
    let take = stepped.map(|step| used(1, &step.before, &step.message)).max();
    let committed = commits(64, 8).into_iter().chain(commits(64, 2)).chain(last_commits());
    let commit = committed.map(|step| used(1, &step.before, &step.message)).max();
    let ran = |what| [cycle(), chain()].iter().map(|server| used(what, server, &[])).max();
    let size = size_of::<layout::Server>();
    println!("\n### Stack\n\n| | bytes | times the server's {size} | goal, bytes |\n|---|---|---|---|");
    for (name, bytes) in [("take", take), ("take of a Commit", commit), ("run", ran(2)), ("run until 0", ran(3))] {
        let bytes = bytes.unwrap_or(0);
        let verdict = if bytes < STACK_GOAL { "met" } else { "**missed**" };
        println!("| {name} | {bytes} | {:.2} | {STACK_GOAL}: {verdict} |", bytes as f64 / size as f64);
    }
}

fn transactions() {
    println!("\n### Whole transactions a second, one core");
    let both = [(true, 32, "by turns on shards 0, 1 and on shards 2, 3"), (false, 64, "all on shards 0, 1")];
    for (by_turns, held, which) in both {
        println!("\nTransactions {which}; the numbers held at each server that takes part:\n");
        println!("| held | library | Rust | time, ratio |\n|---|---|---|---|");
        let (library, rust) = whole::both(|| whole::blocks(&Archive, by_turns), || whole::blocks(&Plain, by_turns));
        whole::print(&library, &rust, held);
    }
}
