//! The archive's functions over lent states and slices, as `include/drobulets.h` has them: a refusal is a number, and states may be out of form.
//!
//! [`Server`](crate::Server), [`Drive`](crate::Drive) and [`Message`](crate::Message) are what a host wants. These are for programs
//! that keep the states themselves, and for tests. All are safe: the header asks for pointers that are good and aligned for the whole
//! call, never null, and to memory that does not overlap and that no other thread touches. Rust's references and slices are such;
//! and every pattern of bytes is a state.
//!
//! This module has the crate's only `unsafe` code.

#![allow(unsafe_code)]

use crate::layout::{Answer, Ballot, Counted, Decoded, Drive, Due, LogEntry, Message, Pieces, Reading, Server, Wants};

extern "C" {
    fn drobulets_server_fresh(server: &mut Server, id: u32) -> u32;
    fn drobulets_server_take(
        server: &mut Server,
        input: *const u8,
        input_length: usize,
        output: *mut u8,
        output_length: usize,
    ) -> Answer;
    fn drobulets_server_run(server: &mut Server) -> Counted;
    fn drobulets_server_run_all(server: &mut Server) -> Counted;
    fn drobulets_server_wanted(server: &Server) -> Wants;
    fn drobulets_server_counter(server: &Server, key: u32) -> Reading;
    fn drobulets_server_log(server: &Server, place: u32) -> LogEntry;
    fn drobulets_server_result(server: &Server, t: u32, place: u32) -> Reading;

    fn drobulets_drive_start(drive: &mut Drive, coordinator: u32, t: u32, pieces: Pieces) -> u32;
    fn drobulets_drive_recover(drive: &mut Drive, coordinator: u32, t: u32, pieces: Pieces, floor: u32) -> u32;
    fn drobulets_drive_again(drive: &mut Drive) -> u32;
    fn drobulets_drive_move_on(drive: &mut Drive) -> u32;
    fn drobulets_drive_take(drive: &mut Drive, input: *const u8, input_length: usize) -> u32;
    fn drobulets_drive_due(drive: &Drive, output: *mut u8, output_length: usize) -> Due;

    fn drobulets_next_ballot(c: u32, n: u32) -> Ballot;
    fn drobulets_decode(input: *const u8, input_length: usize) -> Decoded;
    fn drobulets_encode(message: &Message, output: *mut u8, output_length: usize) -> Answer;
}

/// Puts a fresh server into the lent place, whatever stands there. Refuses 1.
#[inline]
pub fn server_fresh(server: &mut Server, id: u32) -> u32 {
    // SAFETY: the server is lent for the call alone, and the function is total.
    unsafe { drobulets_server_fresh(server, id) }
}

/// Takes a message and writes the reply to the front of the output. A Commit and a Done run until nothing is ready.
#[inline]
pub fn server_take(server: &mut Server, input: &[u8], output: &mut [u8]) -> Answer {
    let (from, to) = (input.as_ptr(), output.as_mut_ptr());
    // SAFETY: server, input and output are lent for the call, apart from each other, and the lengths are theirs.
    unsafe { drobulets_server_take(server, from, input.len(), to, output.len()) }
}

/// Runs the lowest ready number with its group: at start-up. Refuses 13.
#[inline]
pub fn server_run(server: &mut Server) -> Counted {
    // SAFETY: the server is lent for the call alone, and the function is total.
    unsafe { drobulets_server_run(server) }
}

/// Runs until nothing is ready: at start-up. Refuses 13.
#[inline]
pub fn server_run_all(server: &mut Server) -> Counted {
    // SAFETY: the server is lent for the call alone, and the function is total.
    unsafe { drobulets_server_run_all(server) }
}

/// The numbers to inquire for. Refuses 13.
#[inline]
pub fn server_wanted(server: &Server) -> Wants {
    // SAFETY: the server is lent for the call and only read, and the function is total.
    unsafe { drobulets_server_wanted(server) }
}

/// The counter of a key, kept if it is full. It judges no form; nor do the next two.
#[inline]
pub fn server_counter(server: &Server, key: u32) -> Reading {
    // SAFETY: the server is lent for the call and only read, and the function is total.
    unsafe { drobulets_server_counter(server, key) }
}

/// The number at a place of the log.
#[inline]
pub fn server_log(server: &Server, place: u32) -> LogEntry {
    // SAFETY: the server is lent for the call and only read, and the function is total.
    unsafe { drobulets_server_log(server, place) }
}

/// A result of a number, in the order of its pieces on this server's shard.
#[inline]
pub fn server_result(server: &Server, t: u32, place: u32) -> Reading {
    // SAFETY: the server is lent for the call and only read, and the function is total.
    unsafe { drobulets_server_result(server, t, place) }
}

/// Begins at ballot 0, phase 1, in the lent place, whatever stands there. Refuses 12, 1, 2.
#[inline]
pub fn drive_start(drive: &mut Drive, coordinator: u32, t: u32, pieces: Pieces) -> u32 {
    // SAFETY: the drive is lent for the call alone, and the function is total.
    unsafe { drobulets_drive_start(drive, coordinator, t, pieces) }
}

/// Begins at the next ballot above the floor, phase 0, in the lent place, whatever stands there. Refuses 12, 1, 2, 9.
#[inline]
pub fn drive_recover(drive: &mut Drive, coordinator: u32, t: u32, pieces: Pieces, floor: u32) -> u32 {
    // SAFETY: the drive is lent for the call alone, and the function is total.
    unsafe { drobulets_drive_recover(drive, coordinator, t, pieces, floor) }
}

/// Begins again at the next ballot above its own and every promise seen, phase 0. Refuses 13, 8, 9.
#[inline]
pub fn drive_again(drive: &mut Drive) -> u32 {
    // SAFETY: the drive is lent for the call alone, and the function is total.
    unsafe { drobulets_drive_again(drive) }
}

/// Decides with two answers in each shard. Refuses 13, 8, 7.
#[inline]
pub fn drive_move_on(drive: &mut Drive) -> u32 {
    // SAFETY: the drive is lent for the call alone, and the function is total.
    unsafe { drobulets_drive_move_on(drive) }
}

/// Takes a reply.
#[inline]
pub fn drive_take(drive: &mut Drive, input: &[u8]) -> u32 {
    // SAFETY: drive and input are lent for the call, apart from each other, and the length is the input's.
    unsafe { drobulets_drive_take(drive, input.as_ptr(), input.len()) }
}

/// Writes the message due to the front of the output. Refuses 13, 12, 14.
#[inline]
pub fn drive_due(drive: &Drive, output: &mut [u8]) -> Due {
    // SAFETY: drive and output are lent for the call, apart from each other, and the length is the output's.
    unsafe { drobulets_drive_due(drive, output.as_mut_ptr(), output.len()) }
}

/// The smallest ballot above n that coordinator c recovers with. Refuses 1, 9.
#[inline]
pub fn next_ballot(c: u32, n: u32) -> Ballot {
    // SAFETY: it takes numbers alone, and is total.
    unsafe { drobulets_next_ballot(c, n) }
}

/// The message that the bytes say. Refuses 10, 12, 11: the first fault from the front.
#[inline]
pub fn decode(input: &[u8]) -> Decoded {
    // SAFETY: the input is lent for the call, and the length is its own.
    unsafe { drobulets_decode(input.as_ptr(), input.len()) }
}

/// Writes the message's bytes to the front of the output. Refuses 12, 14.
#[inline]
pub fn encode(message: &Message, output: &mut [u8]) -> Answer {
    // SAFETY: the message and the output are lent for the call, and the length is the output's own.
    unsafe { drobulets_encode(message, output.as_mut_ptr(), output.len()) }
}
