//! `wulipday run`: what a roll does to a fresh house.

use crate::{input, tables, Print};
use std::fmt::Write;
use wulipday::{Command, Lounge, Record, ANSWER_BYTES};

/// Each line is the command in words and, as in the sample, behind a `#` its answer
/// and what that means.
pub fn run(file: &str, in_words: bool) -> Print {
    let roll = if in_words { input::read_words(file)? } else { input::read_bytes(file)? };
    let mut lounge = Lounge::fresh();
    let mut print = String::new();
    let mut unread = &roll[..];
    while let Some(command) = Command::decode(unread) {
        let mut record = [0; ANSWER_BYTES];
        unread = &unread[lounge.command(unread, &mut record).read..];
        write_line(&mut print, &command, &Record::read(&record));
    }
    print.push('\n');
    print.push_str(&tables::till(&lounge.till()));
    print.push('\n');
    print.push_str(&tables::pools(&lounge.pools()));
    Ok(print.into_bytes())
}

fn write_line(print: &mut String, command: &Command, record: &Record) {
    let Record { command: byte, code, number, cents } = record;
    let answer = format!("{byte} {code} {number} {cents}");
    let meaning = match record.outcome().expect("the core answers in its own codes") {
        Ok(answer) => answer.to_string(),
        Err(refusal) => format!("refused: {refusal}"),
    };
    let command = command.to_string();
    writeln!(print, "{command:<20}  # {answer:<14}  {meaning}").expect("a string takes it");
}
