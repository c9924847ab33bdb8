//! Commands, answers, stops, refusals and figures.

use crate::document::{number, same, Document};
use crate::Checked;
use reference::command::length;
use reference::roll::ANSWER_BYTES;
use reference::till::FIGURES;
use reference::{refusal, run_roll, Command, House, Sale};
use wulipday::{Refusal, Stop, Till, RULES};

/// Every byte that is a command, its length, and where its operands stand: bytes
/// put together by the table are what the reference reads.
pub fn commands(document: &Document) -> Checked {
    let rows = document.table("Byte", "Command");
    let mut bytes = Vec::new();
    for row in &rows {
        let byte = u8::from_str_radix(row[0], 16).map_err(|_| format!("byte {:?}", row[0]))?;
        let operands = operands(row[2])?;
        let all = 1 + operands.iter().map(|(_, bytes)| bytes).sum::<usize>();
        same(row[1], number(row[3])?, all as i128)?;
        same(row[1], Some(all), length(byte))?;
        let mut command = vec![byte];
        operands.iter().for_each(|(name, bytes)| command.extend(sample(name, *bytes)));
        same("command", row[1].to_string(), read_back(&command))?;
        bytes.push(byte);
    }
    let known: Vec<u8> = (0..=255).filter(|&byte| length(byte).is_some()).collect();
    same("commands", bytes, known)
}

fn operands(cell: &str) -> Result<Vec<(&str, usize)>, String> {
    cell.split(", ").filter(|text| !text.is_empty()).map(operand).collect()
}

/// A name and its bytes.
fn operand(text: &str) -> Result<(&str, usize), String> {
    let (name, bytes) = text.rsplit_once(' ').ok_or_else(|| format!("operand {text:?}"))?;
    Ok((name, number(bytes)? as usize))
}

/// Bytes that tell which operand they are.
fn sample(name: &str, bytes: usize) -> Vec<u8> {
    let first = name.bytes().fold(7u8, |sum, letter| sum.wrapping_mul(3).wrapping_add(letter));
    (0..bytes).map(|place| first.wrapping_add(place as u8)).collect()
}

fn value(name: &str, bytes: usize) -> u32 {
    sample(name, bytes).iter().fold(0, |value, &byte| value << 8 | u32::from(byte))
}

/// The command's name, where its operands are those that were put in.
fn read_back(bytes: &[u8]) -> String {
    let found = Command::decode(bytes);
    let (name, expected) = match found {
        Command::Open { .. } => ("Open", Command::Open { day: value("day", 2) as u16 }),
        Command::Sell(Sale { feature_stake: None, .. }) => ("Sell", Command::Sell(sampled_sale())),
        Command::Sell(_) => {
            let feature_stake = value("feature stake", 4);
            ("Lucky Last", Command::Sell(sampled_sale().with_feature(feature_stake)))
        }
        Command::Cancel { .. } => ("Cancel", Command::Cancel { ticket: value("ticket", 4) }),
        Command::Ball { .. } => ("Ball", Command::Ball { number: value("number", 1) as u8 }),
        Command::Claim { .. } => ("Claim", Command::Claim { ticket: value("ticket", 4) }),
        Command::Expire => ("Expire", Command::Expire),
        Command::Transfer { .. } => {
            let jackpot = value("jackpot", 1) as u8;
            ("Transfer", Command::Transfer { jackpot, cents: value("cents", 4) })
        }
        Command::Collect { .. } => ("Collect", Command::Collect { ticket: value("ticket", 4) }),
        Command::CallOff => ("Call off", Command::CallOff),
    };
    if found == expected {
        return name.to_string();
    }
    format!("{name} with other operands")
}

fn sampled_sale() -> Sale {
    Sale {
        kind: value("kind", 1) as u8,
        games: value("games", 1) as u8,
        stake: value("stake", 4),
        groups: value("groups", 1) as u8,
        types: value("types", 1) as u8,
        marks: sample("marks", 80),
        feature_stake: None,
    }
}

/// An accepted answer and a refused one, read by the table.
pub fn answers(document: &Document) -> Checked {
    let rows = document.table("From byte", "Bytes");
    let mut roll = Command::Open { day: 1 }.encode();
    roll.extend(Command::sell(0, 1, 999_900, &[&[1]], 1).encode());
    roll.extend(Command::Claim { ticket: 9 }.encode());
    let mut book = [0; 3 * ANSWER_BYTES];
    run_roll(&mut House::fresh(), &roll, &mut book);
    let expected: [[u64; 4]; 2] = [[2, 0, 1, 999_900], [5, 18, 0, 0]];
    for (record, expected) in book[ANSWER_BYTES..].chunks(ANSWER_BYTES).zip(expected) {
        let mut end = 0;
        for ((row, name), value) in rows.iter().zip(FIELDS).zip(expected) {
            let (from, bytes) = (number(row[0])? as usize, number(row[1])? as usize);
            same("where a field begins", from, end)?;
            end = from + bytes;
            same("field", row[2], name)?;
            let field = record.get(from..end).ok_or("a field beyond the record")?;
            let said = field.iter().fold(0, |value, &byte| value << 8 | u64::from(byte));
            same(name, said, value)?;
        }
        same("bytes of a record", end, ANSWER_BYTES)?;
    }
    same("fields", rows.len(), FIELDS.len())
}

const FIELDS: [&str; 4] = ["the command's byte", "code: 0, or the refusal", "number", "cents"];

/// The numbers, and which is told where several hold.
pub fn stops(document: &Document) -> Checked {
    let rows = document.table("Stop", "Why");
    same("stops", rows.len(), Stop::ALL.len())?;
    for (row, stop) in rows.iter().zip(Stop::ALL) {
        same("stop", row[1], stop.to_string().as_str())?;
    }
    for (roll, room) in
        [(&[][..], 0), (&[11], 0), (&[11], 14), (&[1, 0], 0), (&[1, 0], 14), (&[6], 13)]
    {
        let holds = |why: &str| match why {
            "the end of the roll" => roll.is_empty(),
            "a byte that is no command's" => roll.first() == Some(&11),
            "a command that is cut off" => roll == [1, 0],
            _ => room < ANSWER_BYTES,
        };
        let row = rows.iter().find(|row| holds(row[1])).ok_or("no stop holds")?;
        let stop = run_roll(&mut House::fresh(), roll, &mut [0; ANSWER_BYTES][..room]).stop;
        same("stop", number(row[0])?, i128::from(stop))?;
    }
    Ok(())
}

/// The codes of the reference, with the sentences of hosts/rust; and of the one that is gone,
/// that it is not used.
pub fn refusals(document: &Document) -> Checked {
    let rows = document.table("Code", "Meaning");
    let codes = rows.iter().map(|row| number(row[0])).collect::<Result<Vec<i128>, String>>()?;
    same("codes", codes, refusal::ALL.map(i128::from).to_vec())?;
    same("codes of hosts/rust", Refusal::ALL.map(Refusal::number), refusal::ALL)?;
    for (row, refusal) in rows.iter().zip(Refusal::ALL) {
        same("meaning", row[1], refusal.sentence())?;
    }
    let not_used = "Code 24 is not used: it stood for a claim of a ticket with nothing due, \
                    which is closed and answered 19. It will not be used again.";
    same(not_used, document.says(not_used), true)
}

pub fn figures(document: &Document) -> Checked {
    let rows = document.table("Figure", "What it counts");
    let names: Vec<&str> = rows.iter().map(|row| row[0]).collect();
    same("figures", &names[..], &FIGURES[..])?;
    same("figures", &names[..], &Till::NAMES[..])
}

pub fn version(document: &Document) -> Checked {
    let sentence = format!("This is version {RULES} of the rules.");
    same("version", document.says(&sentence), true)
}
