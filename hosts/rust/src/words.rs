//! Rolls written in words, one command a line.
//!
//! ```text
//! open DAY
//! sell KIND games N stake CENTS groups N,N,N / N,N types N [feature CENTS]
//! cancel TICKET
//! balls N N N          # several balls, one command each
//! claim TICKET
//! expire
//! transfer JACKPOT CENTS
//! collect TICKET
//! call off
//! ```
//!
//! KIND is `standard`, `jackpot`, `special-one`, `special-two` or a number. With a
//! feature stake the sale is a Lucky Last. What stands after `#` is a comment.
//! Operands only have to fit their bytes: a roll may well hold commands that the
//! house refuses.
//!
//! ```
//! use wulipday::words;
//!
//! let roll = words::encode("open 1\nballs 7 8   # the first two\n").unwrap();
//! assert_eq!(roll, [1, 0, 1, 4, 7, 4, 8]);
//! let bad = words::encode("open 1\nballs 7 x\n").unwrap_err();
//! assert_eq!(bad.to_string(), "line 2: a ball must be a number from 0 to 255, not \"x\"");
//! ```

mod operands;

use crate::{Command, Kind, Sale, NUMBERS};
use operands::{number_within, Words};
use std::error::Error;
use std::fmt;

/// A line of the text, with the commands it stands for.
#[derive(Clone, Debug, PartialEq, Eq)]
pub struct Line<'a> {
    /// From 1 on.
    pub number: usize,
    /// Several where it is a line of balls, none where it is a comment.
    pub commands: Vec<Command>,
    /// What stands after the `#`, if there is one.
    pub comment: Option<&'a str>,
}

/// A line that is no command, and why.
#[derive(Clone, Debug, PartialEq, Eq)]
pub struct BadLine {
    /// From 1 on.
    pub number: usize,
    /// What is wrong, and what was expected.
    pub reason: String,
}

impl fmt::Display for BadLine {
    fn fmt(&self, formatter: &mut fmt::Formatter<'_>) -> fmt::Result {
        write!(formatter, "line {}: {}", self.number, self.reason)
    }
}

impl Error for BadLine {}

/// The roll's bytes.
pub fn encode(text: &str) -> Result<Vec<u8>, BadLine> {
    let lines = read_lines(text)?;
    Ok(lines.iter().flat_map(|line| &line.commands).flat_map(Command::encode).collect())
}

/// All lines, those without a command too.
pub fn read_lines(text: &str) -> Result<Vec<Line<'_>>, BadLine> {
    (1..).zip(text.lines()).map(|(number, line)| read_line(number, line)).collect()
}

fn read_line(number: usize, line: &str) -> Result<Line<'_>, BadLine> {
    let (command, comment) = match line.split_once('#') {
        Some((command, comment)) => (command, Some(comment)),
        None => (line, None),
    };
    let commands = read_commands(command).map_err(|reason| BadLine { number, reason })?;
    Ok(Line { number, commands, comment })
}

fn read_commands(line: &str) -> Result<Vec<Command>, String> {
    let mut words = Words::of(line);
    let Some(name) = words.next() else { return Ok(Vec::new()) };
    let commands = match name {
        "open" => vec![Command::Open { day: words.number("the day")? }],
        "sell" => vec![read_sale(&mut words)?],
        "cancel" => vec![Command::Cancel { ticket: words.number("the ticket")? }],
        "balls" => read_balls(&mut words)?,
        "claim" => vec![Command::Claim { ticket: words.number("the ticket")? }],
        "expire" => vec![Command::Expire],
        "transfer" => vec![read_transfer(&mut words)?],
        "collect" => vec![Command::Collect { ticket: words.number("the ticket")? }],
        "call" => {
            words.expect("off")?;
            vec![Command::CallOff]
        }
        other => {
            let expected =
                "open, sell, cancel, balls, claim, expire, transfer, collect or call off";
            return Err(format!("there is no command \"{other}\": expected {expected}"));
        }
    };
    words.end()?;
    Ok(commands)
}

fn read_balls(words: &mut Words) -> Result<Vec<Command>, String> {
    let mut balls = vec![Command::Ball { number: words.number("the first ball")? }];
    while !words.is_empty() {
        balls.push(Command::Ball { number: words.number("a ball")? });
    }
    Ok(balls)
}

fn read_transfer(words: &mut Words) -> Result<Command, String> {
    let jackpot = words.number("the jackpot")?;
    let cents = words.number("the cents")?;
    Ok(Command::Transfer { jackpot, cents })
}

fn read_sale(words: &mut Words) -> Result<Command, String> {
    let kind = read_kind(words)?;
    words.expect("games")?;
    let games = words.number("the count of games")?;
    words.expect("stake")?;
    let stake = words.number("the stake")?;
    words.expect("groups")?;
    let (groups, marks) = read_groups(&words.up_to("types")?)?;
    let types = words.number("the types")?;
    let feature_stake = read_feature(words)?;
    Ok(Command::Sell(Sale { kind, games, stake, groups, types, marks, feature_stake }))
}

/// The feature stake, where there is one.
fn read_feature(words: &mut Words) -> Result<Option<u32>, String> {
    if words.is_empty() {
        return Ok(None);
    }
    words.expect("feature")?;
    words.number("the feature stake").map(Some)
}

fn read_kind(words: &mut Words) -> Result<u8, String> {
    let named =
        words.peek().and_then(|word| Kind::ALL.into_iter().find(|kind| kind.name() == word));
    match named {
        Some(kind) => {
            words.next();
            Ok(kind.byte())
        }
        None => words.number("the kind"),
    }
}

/// How many groups there are, and the marks. Groups stand between slashes, their
/// numbers between commas.
fn read_groups(text: &str) -> Result<(u8, [u8; NUMBERS]), String> {
    let mut marks = [0; NUMBERS];
    let mut groups = 0u8;
    for group in text.split('/') {
        groups = groups.checked_add(1).ok_or("more than 255 groups do not fit a byte")?;
        for number in read_group(group)? {
            let mark = &mut marks[usize::from(number) - 1];
            if std::mem::replace(mark, groups) != 0 {
                return Err(format!("{number} is marked twice"));
            }
        }
    }
    Ok((groups, marks))
}

fn read_group(text: &str) -> Result<Vec<u8>, String> {
    let numbers = text.split(',').map(str::trim);
    numbers.map(|number| number_within(number, "a marked number", 1, NUMBERS as u8)).collect()
}
