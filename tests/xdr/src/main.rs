//! Holds a codec against rpcgen's, byte for byte and both ways. The argument is the witness program.

mod fields;
mod generate;
mod shapes;
mod stepped;
mod wire;
mod witness;

use chance::Chance;
use engine::{ask as ask_server, Engine, Lent, Tested};
use fields::fields;
use model::{Message, Refusal};
use wire::{Plain, Wire};
use witness::{ask, decode_question, encode_question, hex, seen, Seen};

/// Messages of each code.
const EACH: usize = 60;
const NOISE: usize = 20_000;

/// The words of the example of RFC 4506, section 7, that are numbers.
const PUBLISHED_NUMBERS: [(usize, u32); 5] = [(0, 9), (16, 2), (20, 4), (28, 4), (36, 6)];
const PUBLISHED: &str =
    "0000000973696c6c7970726f6700000000000002000000046c697370000000046a6f686e000000062871756974290000";

fn main() {
    let witness = std::env::args().nth(1).expect("the witness program");
    let mut chance = Chance::of(4506);
    published(&Plain, &witness);
    let codes = Message::CODES.iter().flat_map(|code| vec![*code; EACH]);
    let messages: Vec<Message> = codes.map(|code| generate::message(&mut chance, code)).collect();
    both_ways(&Plain, &witness, &messages);
    let mut strings: Vec<Vec<u8>> = Vec::new();
    for message in &messages {
        strings.extend(generate::damaged(&mut chance, &Plain.encode(message).expect("a message encodes")));
    }
    strings.extend((0..NOISE).map(|_| generate::noise(&mut chance)));
    judged_alike(&Plain, &witness, &strings);
    written_by_steps(&Tested::default(), &witness, &mut chance);
    judged_by_steps(&Tested::default(), &strings);
}

/// The witness writes the RFC's own example as the RFC prints it, and the codec writes the numbers of it as they stand there.
fn published(wire: &impl Wire, witness: &str) {
    assert_eq!(ask(witness, vec!["f".to_string()]), [PUBLISHED]);
    let bytes = witness::bytes(PUBLISHED);
    for (place, number) in PUBLISHED_NUMBERS {
        let inquire = [&[0, 0, 0, 4], &bytes[place..place + 4]].concat();
        assert_eq!(wire.encode(&Message::Inquire { t: number }), Ok(inquire.clone()));
        assert_eq!(wire.decode(&inquire), Ok(Message::Inquire { t: number }));
    }
    println!("the example of RFC 4506, section 7: as printed");
}

/// Both encode each message to the same bytes, and both read the same fields from them.
fn both_ways(wire: &impl Wire, witness: &str, messages: &[Message]) {
    let encoded: Vec<Vec<u8>> = messages.iter().map(|m| wire.encode(m).expect("a message encodes")).collect();
    let theirs = ask(witness, messages.iter().map(|m| encode_question(&fields(m))).collect());
    let read = ask(witness, encoded.iter().map(|bytes| decode_question(bytes)).collect());
    for (((message, ours), theirs), read) in messages.iter().zip(&encoded).zip(theirs).zip(read) {
        assert_eq!(hex(ours), theirs, "{message:?}");
        assert_eq!(read, format!("{} {} {}", ours.len(), hex(ours), fields(message)));
        assert_eq!(wire.decode(ours), Ok(*message));
    }
    println!("{} messages of {} codes: the same bytes both ways", messages.len(), Message::CODES.len());
}

/// Both accept the same strings of bytes, and the refusals have document 01's numbers.
fn judged_alike(wire: &impl Wire, witness: &str, strings: &[Vec<u8>]) {
    let answers = ask(witness, strings.iter().map(|bytes| decode_question(bytes)).collect());
    let mut count = Count::default();
    for (bytes, answer) in strings.iter().zip(answers) {
        let ours = wire.decode(bytes);
        assert_eq!(ours.map_or_else(Refusal::number, |_| 0), shapes::refusal(bytes), "{}", hex(bytes));
        match seen(&answer) {
            Seen::Refused => count.refused(ours.is_err(), bytes),
            Seen::Message { length, anew, fields: theirs } => {
                if anew != bytes[..length] {
                    // The witness takes any boolean but 0 as true. RFC 4506, section 4.4: it is 0 or 1.
                    count.lax(ours == Err(Refusal::Unknown), bytes);
                } else if length < bytes.len() {
                    count.refused(ours == Err(Refusal::BytesLeft), bytes);
                } else {
                    count.accepted(ours.map(|m| fields(&m)) == Ok(theirs), bytes);
                }
            }
        }
    }
    count.print();
}

/// What servers answer and drives send has the bytes that the witness writes.
fn written_by_steps(engine: &impl Lent, witness: &str, chance: &mut Chance) {
    let codes = stepped::CODES.iter().flat_map(|code| vec![*code; EACH]);
    let messages: Vec<Message> = codes.map(|code| stepped::message(chance, code)).collect();
    let theirs = ask(witness, messages.iter().map(|m| encode_question(&fields(m))).collect());
    for (message, theirs) in messages.iter().zip(theirs) {
        assert_eq!(hex(&stepped::encode(engine, message)), theirs, "{message:?}");
    }
    println!("{} messages of {} codes: written by steps as by the witness", messages.len(), stepped::CODES.len());
}

/// A server and a drive judge bytes before all else, and by the same numbers. A blank drive refuses by 13 whatever decodes.
fn judged_by_steps(engine: &impl Engine, strings: &[Vec<u8>]) {
    let mut server = engine.fresh(0).expect("a server of the cluster");
    let mut drive = engine.blank();
    for bytes in strings {
        let expected = shapes::refusal(bytes);
        let at_server = ask_server(engine, &mut server, bytes).map_or_else(Refusal::number, |_| 0);
        let at_drive = engine.reply(&mut drive, bytes).map_or_else(Refusal::number, |()| 0);
        let untaken = expected == 0 && !matches!(bytes[3], 0..=5 | 20);
        let by_bytes = matches!(at_server, 10..=12);
        assert_eq!(if by_bytes { at_server } else { 0 }, if untaken { 12 } else { expected }, "{}", hex(bytes));
        assert_eq!(at_drive, if expected == 0 { 13 } else { expected }, "{}", hex(bytes));
    }
    println!("{} strings judged by a server and by a drive, by the same numbers", strings.len());
}

#[derive(Default)]
struct Count {
    accepted: u32,
    refused: u32,
    lax: u32,
}

impl Count {
    fn accepted(&mut self, alike: bool, bytes: &[u8]) {
        assert!(alike, "the witness accepts {}", hex(bytes));
        self.accepted += 1;
    }

    fn refused(&mut self, alike: bool, bytes: &[u8]) {
        assert!(alike, "the witness refuses {}", hex(bytes));
        self.refused += 1;
    }

    fn lax(&mut self, refused: bool, bytes: &[u8]) {
        assert!(refused, "a boolean that is neither 0 nor 1 in {}", hex(bytes));
        self.lax += 1;
    }

    fn print(&self) {
        let Count { accepted, refused, lax } = self;
        assert!(*accepted > 0 && *refused > 0 && *lax > 0);
        println!("{} damaged strings judged alike: {accepted} accepted, {refused} refused", accepted + refused + lax);
        println!("{lax} of them with a boolean above 1, which libtirpc reads as true and RFC 4506 doesn't allow: refused by 12");
    }
}
