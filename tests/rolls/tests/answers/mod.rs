//! A roll's commands and what the reference answers them.

use reference::roll::commands;
use reference::{Answer, Command, House};

/// The answers to a roll on this house, and the house after it.
pub fn run_on(mut house: House, roll: &[u8]) -> (House, Vec<(Command, Answer)>) {
    let give = |command: Command| {
        let answer = house.command(&command);
        (command, answer)
    };
    let answers: Vec<(Command, Answer)> = commands(roll).map(give).collect();
    let bytes: usize = answers.iter().map(|(command, _)| command.encode().len()).sum();
    assert_eq!(bytes, roll.len(), "a roll of whole known commands");
    (house, answers)
}

pub fn run(roll: &[u8]) -> (House, Vec<(Command, Answer)>) {
    run_on(House::fresh(), roll)
}

pub fn count(answers: &[(Command, Answer)], byte: u8, code: u8) -> usize {
    let of = |(command, answer): &&(Command, Answer)| (command.byte(), answer.code) == (byte, code);
    answers.iter().filter(of).count()
}
