//! The witness as a program: lines of questions in, lines of answers out.

use std::io::{BufRead, BufReader, BufWriter, Write};
use std::process::{Command, Stdio};
use std::thread;

/// The answer of the witness to some bytes.
pub enum Seen {
    /// They aren't a message.
    Refused,
    /// They begin with a message of `length` bytes, which encodes anew to `anew`.
    Message { length: usize, anew: Vec<u8>, fields: String },
}

/// Asks all the questions of a program that answers each by a line.
pub fn ask(program: &str, questions: Vec<String>) -> Vec<String> {
    let many = questions.len();
    let mut child = Command::new(program)
        .stdin(Stdio::piped())
        .stdout(Stdio::piped())
        .spawn()
        .unwrap_or_else(|error| panic!("{program}: {error}"));
    let mut to = BufWriter::new(child.stdin.take().expect("the witness reads"));
    let from = BufReader::new(child.stdout.take().expect("the witness writes"));
    let asking = thread::spawn(move || {
        for question in questions {
            writeln!(to, "{question}").expect("the witness listens");
        }
    });
    let answers: Vec<String> = from.lines().map(|line| line.expect("the witness answers")).collect();
    asking.join().expect("every question was asked");
    assert!(child.wait().expect("the witness ends").success());
    assert_eq!(answers.len(), many, "an answer for each question");
    answers
}

pub fn encode_question(fields: &str) -> String {
    format!("e {fields}")
}

pub fn decode_question(bytes: &[u8]) -> String {
    format!("d {}", hex(bytes))
}

pub fn seen(answer: &str) -> Seen {
    let mut parts = answer.splitn(3, ' ');
    let first = parts.next().unwrap_or("");
    if first == "no" {
        return Seen::Refused;
    }
    let length = first.parse().expect("a length");
    let anew = bytes(parts.next().expect("bytes"));
    Seen::Message { length, anew, fields: parts.next().expect("fields").to_string() }
}

pub fn hex(bytes: &[u8]) -> String {
    bytes.iter().map(|byte| format!("{byte:02x}")).collect()
}

pub fn bytes(hex: &str) -> Vec<u8> {
    let byte = |place| u8::from_str_radix(&hex[place..place + 2], 16).expect("two digits");
    (0..hex.len()).step_by(2).map(byte).collect()
}
