//! "The program ledger": what it prints for a roll on standard input.

use crate::house::House;
use crate::roll::{read_answer, run_roll, ANSWER_BYTES, STOP_BOOK_FULL};

/// How much of a roll the program reads.
pub const LEDGER_BYTES: usize = 65_536;

/// The program's whole output for a roll, run from a fresh house.
pub fn ledger(roll: &[u8]) -> String {
    ledger_of(&mut House::fresh(), roll)
}

/// The same, on a house of the caller's.
pub fn ledger_of(house: &mut House, roll: &[u8]) -> String {
    let mut unread = &roll[..roll.len().min(LEDGER_BYTES)];
    let mut book = [0; 32 * ANSWER_BYTES];
    let mut print = String::new();
    loop {
        let report = run_roll(house, unread, &mut book);
        print_answers(&mut print, &book[..report.answers * ANSWER_BYTES]);
        unread = &unread[report.read..];
        // A full book is emptied, and reading goes on.
        if report.stop != STOP_BOOK_FULL {
            print += &format!("stop {}\n", report.stop);
            break;
        }
    }
    let figures = house.till().map(|figure| figure.to_string());
    print + &format!("till {}\n", figures.join(" "))
}

fn print_answers(print: &mut String, records: &[u8]) {
    for record in records.chunks_exact(ANSWER_BYTES) {
        let (byte, answer) = read_answer(record);
        *print += &format!("{} {} {} {}\n", byte, answer.code, answer.number, answer.cents);
    }
}
