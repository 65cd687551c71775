//! The codec: round trips, every way to end early, faults from the front, and what encoding leaves alone.

mod common;

use common::*;
use model::codec::{bytes_of, decode, encode, LONGEST};
use model::{Message, Pieces, Value, Values, Vote};

/// A message of each code, those with options with and without them.
fn examples() -> Vec<Message> {
    let full: Vec<_> = (0..8).map(|key| (3, key, 2, -1 - key as i32)).collect();
    let full = pieces(&full);
    let one = pieces(&[(0, 3, 1, 5)]);
    let set = set([1, 2, 1 << 63, u64::MAX]);
    let vote = Some(Vote { ballot: 65_535, set });
    let values = Values::of(&[Value { value: i32::MIN, kept: true }, Value { value: 7, kept: false }]);
    let prepared = |arrival, accepted| Message::PrepareOk { t: 9, server: 11, ballot: 8, arrival, accepted };
    vec![
        Message::PreAccept { t: 8, ballot: 0, pieces: one },
        Message::PreAccept { t: 8, ballot: 0, pieces: Pieces::default() },
        Message::Accept { t: u32::MAX, ballot: 3, pieces: full, set },
        Message::Commit { t: 8, pieces: full, set },
        Message::Prepare { t: 8, ballot: 8, pieces: one },
        Message::Inquire { t: 9 },
        Message::Fetch { t: 9 },
        Message::PreAcceptOk { t: 8, server: 2, ballot: 0, word: 0x0102_0304_0506_0708 },
        Message::AcceptOk { t: 8, server: 2, ballot: 0 },
        Message::CommitOk { t: 8, server: 2, ran: 0 },
        Message::CommitOk { t: u32::MAX, server: u32::MAX, ran: u32::MAX },
        prepared(None, None),
        prepared(Some(256), None),
        prepared(None, vote),
        prepared(Some(256), vote),
        Message::Done { t: 8, pieces: one, set },
        Message::Behind { t: 8, server: 0, asked: 0, promise: 8 },
        Message::NotYet { t: 8, server: 0 },
        Message::Results { t: 8, server: 0, values },
        Message::Results { t: 8, server: 0, values: Values::default() },
    ]
}

#[test]
fn every_message_comes_back() {
    for message in examples() {
        let bytes = bytes_of(&message).unwrap();
        assert_eq!(decode(&bytes), Ok(message));
        for end in 0..bytes.len() {
            assert_eq!(decode(&bytes[..end]).map_err(number), Err(10), "{message:?} cut at {end}");
        }
        let more = [&bytes[..], &[0]].concat();
        assert_eq!(decode(&more).map_err(number), Err(11));
    }
}

#[test]
fn the_longest_is_176_bytes() {
    let lengths = examples().iter().map(|message| bytes_of(message).unwrap().len()).max();
    assert_eq!(lengths, Some(LONGEST));
    assert_eq!(LONGEST, 176);
}

#[test]
fn a_whole_message_by_hand() {
    let message = Message::PreAccept { t: 8, ballot: 0, pieces: pieces(&[(0, 3, 2, -2)]) };
    let bytes = [
        [0, 0, 0, 0],
        [0, 0, 0, 8],
        [0, 0, 0, 0],
        [0, 0, 0, 1],
        [0, 0, 0, 0],
        [0, 0, 0, 3],
        [0, 0, 0, 2],
        [255, 255, 255, 254],
    ];
    assert_eq!(bytes_of(&message).unwrap(), bytes.concat());
}

#[test]
fn the_count_of_a_commit_ok_is_its_last_four_bytes() {
    let bytes = [[0, 0, 0, 18], [0, 0, 0, 8], [0, 0, 0, 2], [1, 2, 3, 4]];
    assert_eq!(bytes_of(&Message::CommitOk { t: 8, server: 2, ran: 0x0102_0304 }).unwrap(), bytes.concat());
    assert_eq!(decode(&bytes[..3].concat()).map_err(number), Err(10));
}

#[test]
fn an_unknown_code_is_judged_before_what_follows() {
    for code in (6u32..16).chain(24..40).chain([u32::MAX, 1 << 31, 1 << 16]) {
        let code = code.to_be_bytes();
        for rest in [0, 3, 4, 200] {
            let bytes = [&code[..], &vec![0; rest]].concat();
            assert_eq!(decode(&bytes).map_err(number), Err(12));
        }
    }
}

#[test]
fn a_count_is_judged_before_its_entries() {
    let nine = [0, 0, 0, 2, 0, 0, 0, 1, 0, 0, 0, 9];
    assert_eq!(decode(&nine).map_err(number), Err(12));
    assert_eq!(decode(&nine[..11]).map_err(number), Err(10));
    let eight = [0, 0, 0, 2, 0, 0, 0, 1, 0, 0, 0, 8];
    assert_eq!(decode(&eight).map_err(number), Err(10));
}

#[test]
fn a_boolean_is_0_or_1() {
    let prepared = Message::PrepareOk { t: 9, server: 11, ballot: 8, arrival: None, accepted: None };
    let bytes = bytes_of(&prepared).unwrap();
    for flag in [16, 20] {
        for byte in flag..flag + 4 {
            let mut damaged = bytes.clone();
            damaged[byte] |= 2;
            assert_eq!(decode(&damaged).map_err(number), Err(12));
            assert_eq!(decode(&damaged[..flag + 4]).map_err(number), Err(12));
        }
    }
}

#[test]
fn encoding_writes_the_message_and_nothing_else() {
    for message in examples() {
        let bytes = bytes_of(&message).unwrap();
        let mut out = [0xa5; 200];
        assert_eq!(encode(&message, &mut out), Ok(bytes.len()));
        assert_eq!(out[..bytes.len()], bytes);
        assert!(out[bytes.len()..].iter().all(|byte| *byte == 0xa5));
        let mut exact = vec![0xa5; bytes.len()];
        assert_eq!(encode(&message, &mut exact), Ok(bytes.len()));
        let mut short = vec![0xa5; bytes.len() - 1];
        assert_eq!(encode(&message, &mut short).map_err(number), Err(14));
        assert!(short.iter().all(|byte| *byte == 0xa5));
    }
}

#[test]
fn too_many_entries_are_judged_before_a_short_buffer() {
    let nine = Pieces { count: 9, ..Pieces::default() };
    let values = Values { count: 9, ..Values::default() };
    for message in [Message::Prepare { t: 0, ballot: 8, pieces: nine }, Message::Results { t: 0, server: 0, values }] {
        assert_eq!(encode(&message, &mut [0; 200]).map_err(number), Err(12));
        assert_eq!(encode(&message, &mut []).map_err(number), Err(12));
    }
}
