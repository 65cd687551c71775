//! The structs of `layout` against those of the C header, as the C compiler lays them out: sizes, and the place and size of each field.

use drobulets::layout::*;
use std::fmt::Write;
use std::mem::{size_of, size_of_val};
use std::path::{Path, PathBuf};
use std::process::Command;
use std::{env, fs};

/// A struct: its C name, its size, and each field's name, place and size.
struct Shape {
    name: &'static str,
    size: usize,
    fields: Vec<(&'static str, usize, usize)>,
}

/// The shapes of structs. A field that is forgotten here is refused by the compiler.
macro_rules! shapes {
    ($($type:ident $name:ident { $($field:ident),* })*) => {
        vec![$({
            let state = Box::<$type>::default();
            let $type { $($field),* } = &*state;
            let begin = &*state as *const $type as usize;
            let fields = vec![$((stringify!($field), $field as *const _ as usize - begin, size_of_val($field))),*];
            Shape { name: stringify!($name), size: size_of::<$type>(), fields }
        }),*]
    };
}

fn shapes() -> Vec<Shape> {
    shapes! {
        Piece drobulets_piece { shard, key, kind, operand }
        Pieces drobulets_pieces { list, count }
        Set drobulets_set { w0, w1, w2, w3 }
        MaybeWord drobulets_maybe_word { some, word }
        MaybeVote drobulets_maybe_vote { some, ballot, set }
        MaybeSet drobulets_maybe_set { some, set }
        Value drobulets_value { value, kept }
        Values drobulets_values { list, count }
        Message drobulets_message { code, t, server, ballot, promise, pieces, set, word, arrival, accepted, values, ran }
        Record drobulets_record { pieces, promise, arrival, accepted, committed, ran, values }
        Counter drobulets_counter { value, full }
        Counters drobulets_counters { list }
        Log drobulets_log { list, count }
        Server drobulets_server { id, records, counters, log }
        Slot drobulets_slot { counted, arrival, accepted }
        Drive drobulets_drive { t, coordinator, ballot, phase, pieces, answers, chosen, seen }
        Answer drobulets_answer { refusal, length }
        Counted drobulets_counted { refusal, many }
        Wants drobulets_wants { refusal, set }
        Reading drobulets_reading { some, value, kept }
        LogEntry drobulets_log_entry { some, number }
        Due drobulets_due { refusal, length, servers }
        Ballot drobulets_ballot { refusal, ballot }
        Decoded drobulets_decoded { refusal, message }
    }
}

/// The limits of the header, by their C names.
const LIMITS: [(&str, usize); 9] = [
    ("DROBULETS_SHARDS", drobulets::SHARDS as usize),
    ("DROBULETS_REPLICAS", drobulets::REPLICAS as usize),
    ("DROBULETS_SERVERS", drobulets::SERVERS as usize),
    ("DROBULETS_NUMBERS", drobulets::NUMBERS as usize),
    ("DROBULETS_COORDINATORS", drobulets::COORDINATORS as usize),
    ("DROBULETS_KEYS", drobulets::KEYS as usize),
    ("DROBULETS_PIECES", drobulets::PIECES),
    ("DROBULETS_LONGEST", drobulets::LONGEST),
    ("DROBULETS_STACK", drobulets::STACK),
];

/// A C program that asserts each fact, and has no others. It is compiled and not run.
fn assertions() -> String {
    let mut program = "#include <drobulets.h>\n".to_string();
    let mut assert = |fact: String| writeln!(program, "_Static_assert({fact}, \"{fact}\");").unwrap();
    for Shape { name, size, fields } in shapes() {
        assert(format!("sizeof({name}) == {size}"));
        for (field, place, size) in fields {
            assert(format!("offsetof({name}, {field}) == {place}"));
            assert(format!("sizeof((({name} *)0)->{field}) == {size}"));
        }
    }
    LIMITS.iter().for_each(|(name, limit)| assert(format!("{name} == {limit}")));
    program
}

fn header() -> PathBuf {
    Path::new(env!("CARGO_MANIFEST_DIR")).join("../../include")
}

/// What the C compiler has against a program.
fn complaints(name: &str, program: &str) -> String {
    let source = Path::new(env!("CARGO_TARGET_TMPDIR")).join(name);
    fs::write(&source, program).unwrap();
    let compiler = env::var("CC").unwrap_or_else(|_| "cc".to_string());
    let options = ["-std=c11", "-pedantic", "-Wall", "-Wextra", "-Werror", "-fsyntax-only"];
    let compiled = Command::new(compiler).args(options).arg("-I").arg(header()).arg(source).output().unwrap();
    let complaints = String::from_utf8(compiled.stderr).unwrap();
    assert_eq!(compiled.status.success(), complaints.is_empty());
    complaints
}

#[test]
fn every_struct_is_laid_out_as_in_the_header() {
    assert_eq!(complaints("layout.c", &assertions()), "");
}

#[test]
fn every_struct_of_the_header_is_compared() {
    let header = fs::read_to_string(header().join("drobulets.h")).unwrap();
    let declared: Vec<&str> =
        header.lines().filter_map(|line| line.strip_prefix("typedef struct ")?.strip_suffix(" {")).collect();
    let compared: Vec<&str> = shapes().iter().map(|shape| shape.name).collect();
    assert_eq!(declared, compared);
}

#[test]
fn a_wrong_place_is_noticed() {
    let shifted =
        assertions().replace("offsetof(drobulets_drive, chosen) == 920", "offsetof(drobulets_drive, chosen) == 928");
    assert_ne!(shifted, assertions());
    assert!(complaints("shifted.c", &shifted).contains("drobulets_drive, chosen"));
}
