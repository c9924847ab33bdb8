//! "The roll": the reader of commands and writer of answers, with the first
//! row of "Where each thing is checked".

use crate::command::{length, Answer, Command};
use crate::house::House;

pub const STOP_END_OF_ROLL: u8 = 0;
pub const STOP_UNKNOWN_BYTE: u8 = 1;
pub const STOP_TOO_FEW_BYTES: u8 = 2;
pub const STOP_BOOK_FULL: u8 = 3;

/// Bytes of an answer: command byte, code, number (4), cents (8).
pub const ANSWER_BYTES: usize = 14;

/// How far the reader came.
#[derive(Clone, Copy, Debug, PartialEq, Eq)]
pub struct Report {
    pub stop: u8,
    /// Bytes of the answered commands; the unread part is `roll[read..]`.
    pub read: usize,
    pub answers: usize,
}

/// Runs the commands of a roll on the house and writes each one's answer into
/// the book, up to the first place where it must stop. A refused command is
/// answered and reading goes on.
pub fn run_roll(house: &mut House, roll: &[u8], book: &mut [u8]) -> Report {
    let mut read = 0;
    let mut answers = 0;
    loop {
        let room = &mut book[answers * ANSWER_BYTES..];
        let bytes = match next_command(&roll[read..], room.len()) {
            Ok(bytes) => bytes,
            Err(stop) => return Report { stop, read, answers },
        };
        let answer = house.command(&Command::decode(bytes));
        write_answer(room, bytes[0], answer);
        read += bytes.len();
        answers += 1;
    }
}

/// The bytes of the next command, or why reading stops before it. A full book
/// stops only a whole known command.
fn next_command(unread: &[u8], room: usize) -> Result<&[u8], u8> {
    let byte = *unread.first().ok_or(STOP_END_OF_ROLL)?;
    let length = length(byte).ok_or(STOP_UNKNOWN_BYTE)?;
    let bytes = unread.get(..length).ok_or(STOP_TOO_FEW_BYTES)?;
    if room < ANSWER_BYTES {
        return Err(STOP_BOOK_FULL);
    }
    Ok(bytes)
}

/// The whole known commands that a roll begins with.
pub fn commands(roll: &[u8]) -> impl Iterator<Item = Command> + '_ {
    let mut unread = roll;
    std::iter::from_fn(move || {
        let (bytes, rest) = unread.split_at_checked(length(*unread.first()?)?)?;
        unread = rest;
        Some(Command::decode(bytes))
    })
}

fn write_answer(room: &mut [u8], byte: u8, answer: Answer) {
    room[0] = byte;
    room[1] = answer.code;
    room[2..6].copy_from_slice(&answer.number.to_be_bytes());
    room[6..14].copy_from_slice(&answer.cents.to_be_bytes());
}

/// The command byte and the answer in a record of the book.
pub fn read_answer(record: &[u8]) -> (u8, Answer) {
    let number = u32::from_be_bytes(record[2..6].try_into().expect("4 bytes"));
    let cents = u64::from_be_bytes(record[6..14].try_into().expect("8 bytes"));
    (record[0], Answer { code: record[1], number, cents })
}
