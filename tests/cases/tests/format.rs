//! The format both ways: what is shown is read back as it was, and every field is the one of its name.

use cases::state::{with, State};
use cases::table::{read, Entry};
use cases::words::Words;
use cases::{bytes, drive, fields, message, parts, server};
use engine::layout;
use std::collections::HashMap;

fn state(list: &str) -> State {
    let clauses = cases::state::clauses(list, &HashMap::new()).expect("clauses");
    with(&State::None, &clauses).unwrap_or_else(|why| panic!("{why}"))
}

fn server_of(list: &str) -> layout::Server {
    match state(list) {
        State::Server(server) => *server,
        _ => panic!("{list} is no server"),
    }
}

fn drive_of(list: &str) -> layout::Drive {
    match state(list) {
        State::Drive(drive) => *drive,
        _ => panic!("{list} is no drive"),
    }
}

#[test]
fn a_state_is_read_back_from_its_clauses() {
    let full = "server 3; T0..63 pieces (0,3,put,5) (1,0,add,-2); T8 promise 16; T8 arrived {1 9}; T9 accepted {1} {} {2..5} {63} at 8; \
                T9 committed empty; T8 results 5, 7 kept; T9 results nothing; counter 14 = 7 full; counter 15 = -1; log 63 0..7";
    assert_eq!(with(&State::None, &server::clauses(&server_of(full))), Ok(state(full)));
    let full =
        "drive T8 coordinator 3 ballot 11 phase 2 pieces (0,3,put,5); answer 0 word {1}; answer 1 nothing; seen 8; \
                answer 11 word none accepted {} {} {} {0 1} at 8; set {} {} {} {63}";
    let clauses: Vec<String> = [vec!["blank".to_string()], drive::clauses(&drive_of(full))].concat();
    assert_eq!(with(&State::None, &clauses), Ok(state(full)));
}

#[test]
fn a_field_is_the_one_of_its_name() {
    let server = server_of(
        "server 0; raw id = 1; raw records[8].pieces.list[7].operand = -3; raw records[63].accepted.set.w3 = {5}",
    );
    assert_eq!((server.id, server.records[8].pieces.list[7].operand, server.records[63].accepted.set.w3), (1, -3, 32));
    let server = server_of(
        "server 0; raw records[8].ran = 2; raw records[8].values.list[7].kept = 3; raw records[9].values.count = 4",
    );
    let (eight, nine) = (server.records[8], server.records[9]);
    assert_eq!((eight.ran, eight.values.list[7].kept, nine.values.count), (2, 3, 4));
    let server = server_of("server 0; raw counters.list[15].value = -7; raw log.list[63] = 8; raw log.count = 65");
    assert_eq!((server.counters.list[15].value, server.log.list[63], server.log.count), (-7, 8, 65));
    let server = server_of("server 0; counter 3 = 5 full; raw counters.list[4].full = 7");
    assert_eq!(server.counters.list[3], layout::Counter { value: 5, full: 1 });
    assert_eq!(server.counters.list[4], layout::Counter { value: 0, full: 7 });
    assert_eq!(server_of("server 0; counter 3 = 5 full; counter 3 = 6").counters.list[3].full, 0);
    let drive = drive_of("blank; raw phase = 1; raw pieces.count = 9; raw answers[11].counted = 2; raw chosen.set.w3 = 18446744073709551615; raw seen = 3");
    assert_eq!((drive.phase, drive.pieces.count, drive.answers[11].counted), (1, 9, 2));
    assert_eq!((drive.chosen.set.w3, drive.seen), (u64::MAX, 3));
    for state in [State::Server(Box::default()), State::Drive(Box::default())] {
        assert_eq!(fields::many(&state), fields::names(&state).len());
    }
    let mut lent = layout::Message::default();
    for said in
        ["promise = 5", "word = {1}", "accepted.some = 6", "values.list[0].value = -8", "values.count = 9", "ran = 7"]
    {
        fields::store_in_message(&mut lent, &mut Words::of(said)).expect("a field of a message");
    }
    assert_eq!((lent.promise, lent.word, lent.accepted.some), (5, 2, 6));
    assert_eq!((lent.values.list[0].value, lent.values.count, lent.ran), (-8, 9, 7));
}

#[test]
fn a_message_is_read_back_from_its_text_and_its_bytes() {
    let texts = [
        "PreAccept T8 ballot 0 (0,3,put,5) (1,0,99,-2)",
        "Accept T8 ballot 8 (0,3,read,0) set {1} {} {} {63}",
        "Commit T8 no pieces set empty",
        "Prepare T8 ballot 8 (0,3,add,5)",
        "Inquire T8",
        "Fetch T8",
        "PreAcceptOK T8 server 1 ballot 2 word {0..63}",
        "AcceptOK T8 server 1 ballot 2",
        "CommitOK T8 server 1 ran 4294967295",
        "PrepareOK T8 server 1 ballot 2 arrived {1} accepted {} {} {2} {} at 8",
        "PrepareOK T8 server 1 ballot 2 arrived none accepted none",
        "Done T8 (0,3,put,5) set empty",
        "Behind T8 server 1 asked 2 promise 3",
        "NotYet T8 server 1",
        "Results T8 server 1 values 5, 7 kept",
        "Results T8 server 1 values none",
    ];
    for text in texts {
        let said = message::message(&mut Words::of(text)).unwrap_or_else(|why| panic!("{text}: {why}"));
        assert_eq!(message::show(&said), text);
        assert_eq!(bytes::read(&bytes::write(&said)), Some(said));
    }
}

#[test]
fn a_word_is_shown_by_its_numbers() {
    for text in ["{}", "{0}", "{0 1}", "{0..2}", "{1 8}", "{0..7 9 62 63}", "{0..63}", "{61..63}"] {
        assert_eq!(parts::show_word(parts::word(&mut Words::of(text)).expect("a word")), text);
    }
}

/// The wrong lines of a file.
fn wrong(text: &str) -> Vec<String> {
    let entries: Vec<Entry> = read("f", text);
    entries.into_iter().filter_map(|entry| Some(format!("{}: {}", entry.place, entry.row.err()?))).collect()
}

#[test]
fn a_file_has_rows_and_a_row_its_sentence() {
    assert_eq!(wrong("# nothing\n= a sentence\nheld := server 0\n"), ["f: there is no row in this file"]);
    assert_eq!(wrong("server 0 | run | 0 | nothing"), ["f:1: a row has a sentence above it, `= ..`"]);
    assert_eq!(wrong("= a sentence\n# goes on \\\n | run | 0 | nothing\n"), ["f:3: no row above leaves a state"]);
    assert_eq!(wrong("= a sentence\nserver 0 \\\n | run \\\n | 0 | nothing\n | run | 0 | nothing"), [""; 0]);
    let twice = "= a sentence\nheld := server 0\nheld := server 1\nheld | run | 0 | nothing";
    assert_eq!(wrong(twice), ["f:3: there is a `held` above"]);
}
