//! Encoding and decoding: the library, plain Rust, and rpcgen's code over libtirpc.

use crate::meter::{head, line, Cost, Meter};
use crate::states::pieces;
use drobulets::layout::{self, Answer, Pieces, Set};
use drobulets::raw;
use engine::{image, LONGEST};
use model::{codec, Message};
use std::ffi::c_int;
use std::hint::black_box;

extern "C" {
    fn tirpc_decode(longest: c_int, bytes: *const u8, length: u32) -> u32;
    fn tirpc_encode(longest: c_int, bytes: *mut u8, room: u32) -> u32;
}

/// Calls in a try.
const TIMES: u32 = 1000;

pub fn measure(meter: &Meter) {
    let accept = Message::Accept { t: 9, ballot: 8, pieces: pieces(8), set: model::Set([1, 2, 4, 8]) };
    let samples = [("Accept, 8 pieces", 1, accept), ("Inquire", 0, Message::Inquire { t: 9 })];
    let costs = samples.map(|(name, longest, plain)| {
        let bytes = codec::bytes_of(&plain).expect("a good message");
        let (encode, decode) = (format!("encode {name}"), format!("decode {name}"));
        let encoded = || encoding(meter, longest, &plain, &bytes, &encode);
        let decoded = || decoding(meter, longest, &plain, &bytes, &decode);
        [(&encode, least(meter, encoded)), (&decode, least(meter, decoded))].map(|(name, costs)| (name.clone(), costs))
    });
    head("Codec against libtirpc", "libtirpc");
    costs.iter().flatten().for_each(|(name, [ours, _, tirpc])| line(name, *ours, *tirpc, Some(0.5)));
    head("Codec against plain Rust", "Rust");
    costs.iter().flatten().for_each(|(name, [ours, rust, _])| line(name, *ours, *rust, Some(1.2)));
}

/// The least of each cost, over all rounds.
fn least(meter: &Meter, costs: impl Fn() -> [Cost; 3]) -> [Cost; 3] {
    meter.more_rounds().fold(costs(), |best, _| {
        let again = costs();
        [0, 1, 2].map(|i| best[i].least(again[i]))
    })
}

/// The costs of the library, Rust, libtirpc. The three must write the same bytes and none behind them.
fn encoding(meter: &Meter, longest: c_int, plain: &Message, bytes: &[u8], name: &str) -> [Cost; 3] {
    let pieces = plain.pieces().map_or(Pieces::default(), image::pieces_image);
    let (ballot, set) = (plain.ballot().unwrap_or(0), plain.set().map_or(Set::default(), image::set_image));
    let flat = layout::Message { code: plain.code(), t: plain.t(), ballot, pieces, set, ..Default::default() };
    let many = bytes.len() as u32;
    assert_eq!(unsafe { tirpc_decode(longest, bytes.as_ptr(), many) }, many);
    let before = [0xA5u8; LONGEST];
    let (ours, a) = meter.of(&format!("{name} library"), TIMES, &before, |to| {
        assert_eq!(raw::encode(black_box(&flat), to), Answer { refusal: 0, length: many });
    });
    let (rust, b) = meter.of(&format!("{name} Rust"), TIMES, &before, |to| {
        assert_eq!(codec::encode(black_box(plain), &mut to[..]), Ok(many as usize));
    });
    let (tirpc, c) = meter.of(&format!("{name} libtirpc"), TIMES, &before, |to| {
        assert_eq!(unsafe { tirpc_encode(longest, to.as_mut_ptr(), LONGEST as u32) }, many);
    });
    assert!([a, b, c].iter().all(|w| w.starts_with(bytes) && w[bytes.len()..].iter().all(|byte| *byte == 0xA5)));
    [ours, rust, tirpc]
}

/// The costs of the library, Rust, libtirpc. What the three read must be the same, or encode to the same bytes again.
fn decoding(meter: &Meter, longest: c_int, plain: &Message, bytes: &[u8], name: &str) -> [Cost; 3] {
    let (from, many) = (bytes.as_ptr(), bytes.len());
    let (ours, _) = meter.of(&format!("{name} library"), TIMES, &(), |_| {
        assert_eq!(black_box(&raw::decode(black_box(bytes))).refusal, 0);
    });
    let (rust, _) = meter.of(&format!("{name} Rust"), TIMES, &(), |_| {
        assert!(black_box(&codec::decode(black_box(bytes))).is_ok());
    });
    let (tirpc, _) = meter.of(&format!("{name} libtirpc"), TIMES, &(), |_| {
        assert_eq!(unsafe { tirpc_decode(longest, black_box(from), many as u32) } as usize, many);
    });
    let mut again = [[0u8; LONGEST]; 2];
    raw::encode(&raw::decode(bytes).message, &mut again[0]);
    unsafe { tirpc_encode(longest, again[1].as_mut_ptr(), LONGEST as u32) };
    assert!(codec::decode(bytes) == Ok(*plain) && again.iter().all(|a| a.starts_with(bytes)));
    [ours, rust, tirpc]
}
