//! Each message through the archive's codec and back, and what has no bytes.

use drobulets::{layout, Message, Piece, Refusal, Set, Value, Vote, LONGEST};

const SET: Set = Set { w0: u64::MAX, w1: 1, w2: 0, w3: 1 << 63 };

fn eight_pieces() -> Vec<Piece> {
    let signed = [i32::MIN, -1, 0, 1, i32::MAX, 7, -7, 8];
    (0..8).zip(signed).map(|(i, operand)| Piece { shard: i / 4, key: i, kind: i % 4, operand }).collect()
}

/// Each of the fourteen, with every field at a value of its own, and at the ends of lists and options.
fn samples() -> Vec<Message> {
    let (t, server, ballot, set) = (63, 11, 65_535, SET);
    let vote = Vote { ballot: 64, set };
    let value = |i: i32| Value { value: -i, kept: i % 2 == 1 };
    let mut samples = vec![
        Message::Inquire { t },
        Message::Inquire { t: u32::MAX },
        Message::Fetch { t },
        Message::PreAcceptOk { t, server, ballot, word: 1 << 63 | 1 },
        Message::AcceptOk { t, server, ballot },
        Message::CommitOk { t, server, ran: 64 },
        Message::CommitOk { t, server, ran: u32::MAX },
        Message::Behind { t, server, asked: 8, promise: ballot },
        Message::NotYet { t, server },
    ];
    for pieces in [vec![], vec![Piece::read(3, 15)], eight_pieces()] {
        samples.push(Message::PreAccept { t, ballot, pieces: pieces.clone() });
        samples.push(Message::Accept { t, ballot, pieces: pieces.clone(), set });
        samples.push(Message::Commit { t, pieces: pieces.clone(), set });
        samples.push(Message::Prepare { t, ballot, pieces: pieces.clone() });
        samples.push(Message::Done { t, pieces, set });
    }
    for (arrival, accepted) in [(None, None), (Some(0), None), (None, Some(vote)), (Some(u64::MAX), Some(vote))] {
        samples.push(Message::PrepareOk { t, server, ballot, arrival, accepted });
    }
    for many in [0, 1, 8] {
        samples.push(Message::Results { t, server, values: (0..many).map(value).collect() });
    }
    samples
}

#[test]
fn every_message_reads_back_from_its_bytes() {
    let mut codes: Vec<u32> = samples().iter().map(Message::code).collect();
    codes.sort_unstable();
    codes.dedup();
    assert_eq!(codes, [0, 1, 2, 3, 4, 5, 16, 17, 18, 19, 20, 21, 22, 23]);
    for message in samples() {
        let bytes = message.encode().unwrap();
        assert!(bytes.len() <= LONGEST);
        assert_eq!(bytes[..4], message.code().to_be_bytes());
        assert_eq!(bytes[4..8], message.t().to_be_bytes());
        assert_eq!(Message::decode(&bytes).as_ref(), Ok(&message));
        assert_eq!(Message::decode(&bytes[..bytes.len() - 1]), Err(Refusal::BytesShort));
        assert_eq!(Message::decode(&[&bytes[..], &[0]].concat()), Err(Refusal::BytesLeft));
    }
}

#[test]
fn every_message_reads_back_from_its_struct() {
    for message in samples() {
        let flat = layout::Message::from(&message);
        assert_eq!(Message::try_from(&flat).as_ref(), Ok(&message));
    }
}

#[test]
fn what_a_struct_ignores_is_no_part_of_the_message() {
    let inquire = Message::Inquire { t: 9 };
    let rubbish = layout::Message { server: 5, word: 7, ran: 3, ..layout::Message::from(&inquire) };
    assert_eq!(Message::try_from(&rubbish), Ok(inquire));
}

#[test]
fn a_struct_that_is_no_message_is_refused() {
    let unknown = layout::Message { code: 6, ..Default::default() };
    assert_eq!(Message::try_from(&unknown), Err(Refusal::NotTaken));
    let mut over = layout::Message::from(&Message::Commit { t: 1, pieces: vec![], set: SET });
    over.pieces.count = 9;
    assert_eq!(Message::try_from(&over), Err(Refusal::NotTaken));
    let mut over = layout::Message::from(&Message::Results { t: 1, server: 0, values: vec![] });
    over.values.count = u32::MAX;
    assert_eq!(Message::try_from(&over), Err(Refusal::NotTaken));
}

#[test]
fn a_list_of_nine_has_no_bytes() {
    let pieces = vec![Piece::read(0, 0); 9];
    assert_eq!(Message::PreAccept { t: 1, ballot: 0, pieces }.encode(), Err(Refusal::NotTaken));
    let values = vec![Value::default(); 9];
    assert_eq!(Message::Results { t: 1, server: 0, values }.encode(), Err(Refusal::NotTaken));
}

#[test]
fn encoding_writes_the_message_and_nothing_behind_it() {
    for message in samples() {
        let bytes = message.encode().unwrap();
        let mut output = [0xA5; LONGEST + 3];
        assert_eq!(message.encode_into(&mut output), Ok(bytes.len()));
        assert!(output.starts_with(&bytes) && output[bytes.len()..].iter().all(|byte| *byte == 0xA5));
        let mut short = vec![0xA5; bytes.len() - 1];
        assert_eq!(message.encode_into(&mut short), Err(Refusal::OutputShort));
        assert!(short.iter().all(|byte| *byte == 0xA5));
    }
}

#[test]
fn a_piece_prints_as_document_01_writes_it() {
    let pieces =
        [Piece::read(0, 3), Piece::put(1, 0, 5), Piece::add(3, 15, -2), Piece { kind: 99, ..Piece::read(9, 9) }];
    assert_eq!(pieces.map(|piece| piece.to_string()), ["(0,3,read,0)", "(1,0,put,5)", "(3,15,add,-2)", "(9,9,99,0)"]);
}
