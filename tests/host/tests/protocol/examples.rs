//! The worked examples, on the reference and on the core; and the journal's bytes.

use crate::document::{number, same, Document};
use crate::Checked;
use reference::roll::ANSWER_BYTES;
use reference::till::FIGURES;
use reference::{run_roll, House};
use std::fs;
use std::path::PathBuf;
use std::sync::OnceLock;
use wulipday::{Command, JournaledLounge, Lounge};

/// Both houses, and what they answered last.
struct Example {
    house: House,
    lounge: Lounge,
    answer: Option<Vec<u8>>,
}

pub fn worked(document: &Document) -> Checked {
    let blocks = document.blocks("hex");
    same("examples", blocks.len(), 5)?;
    for block in blocks {
        let (house, lounge) = (House::fresh(), Lounge::fresh());
        let mut example = Example { house, lounge, answer: None };
        block.iter().try_for_each(|line| example.take(line))?;
    }
    Ok(())
}

impl Example {
    fn take(&mut self, line: &str) -> Checked {
        let (mark, rest) = line.split_once(' ').unwrap_or((line, ""));
        match mark {
            ">" => self.give(&bytes(rest)?),
            "<" => same("answer", Some(bytes(rest)?), self.answer.take()),
            "till" => {
                same("till", rest.to_string(), joined(self.house.till()))?;
                same("till of the core", rest.to_string(), joined(self.lounge.till().figures()))
            }
            "pools" => self.pools(rest),
            "live" => self.live(&bytes(rest)?),
            _ => Err(format!("{line:?} is no line of an example")),
        }
    }

    fn give(&mut self, roll: &[u8]) -> Checked {
        same("an answer that was not shown", self.answer.take(), None)?;
        let mut book = vec![0; roll.len() * ANSWER_BYTES];
        let mut core_book = book.clone();
        let report = run_roll(&mut self.house, roll, &mut book);
        same("stop", report.stop, 0)?;
        self.lounge.roll(roll, &mut core_book);
        same("answers of the core", &book, &core_book)?;
        let records = book[..report.answers * ANSWER_BYTES].chunks(ANSWER_BYTES);
        self.answer = records.last().map(<[u8]>::to_vec);
        Ok(())
    }

    fn pools(&self, said: &str) -> Checked {
        let pools = self.house.pools();
        let four = |pools: &reference::Jackpot| {
            [pools.primary, pools.secondary, pools.reimbursement, pools.debt]
        };
        same("pools", said.to_string(), joined([four(&pools.six), four(&pools.eight)].concat()))?;
        let pools = self.lounge.pools();
        let four = |pools: wulipday::Jackpot| {
            [pools.primary, pools.secondary, pools.reimbursement, pools.debt].map(i128::from)
        };
        let found = [four(pools.six), four(pools.eight)].concat();
        same("pools of the core", said.to_string(), joined(found))
    }

    /// What the live list makes of a buffer that is full of FF.
    fn live(&self, said: &[u8]) -> Checked {
        let mut out = [0xFF; 12];
        self.house.live_list(&mut out).map_err(|code| format!("live list: {code}"))?;
        same("live list", said, &out[..])?;
        let mut out = [0xFF; 12];
        self.lounge.live_list(&mut out).map_err(|refusal| refusal.to_string())?;
        same("live list of the core", said, &out[..])
    }
}

fn joined(numbers: impl IntoIterator<Item = i128>) -> String {
    let numbers: Vec<String> = numbers.into_iter().map(|number| number.to_string()).collect();
    numbers.join(" ")
}

/// Bytes in hexadecimal, and runs of one byte as `00*6`.
fn bytes(text: &str) -> Result<Vec<u8>, String> {
    let mut bytes = Vec::new();
    for word in text.split_whitespace() {
        let (digits, times) = word.split_once('*').unwrap_or((word, "1"));
        let times = number(times)? as usize;
        let pairs = (0..digits.len()).step_by(2).map(|at| digits.get(at..at + 2).unwrap_or("?"));
        let run = pairs.map(|pair| u8::from_str_radix(pair, 16));
        let run: Vec<u8> = run.collect::<Result<_, _>>().map_err(|_| format!("bytes {word:?}"))?;
        bytes.extend(run.repeat(times));
    }
    Ok(bytes)
}

/// The table by hand is the till at the end of the first example.
pub fn by_hand(document: &Document) -> Checked {
    let rows = document.table("Figure", "At the end");
    let names: Vec<&str> = rows.iter().map(|row| row[0]).collect();
    same("figures", &names[..], &FIGURES[..])?;
    let figures = rows.iter().map(|row| number(row[1]));
    let figures = joined(figures.collect::<Result<Vec<i128>, String>>()?);
    let blocks = document.blocks("hex");
    let mut tills = blocks[0].iter().filter_map(|line| line.strip_prefix("till "));
    same("till", Some(figures.as_str()), tills.next_back())
}

/// The bytes are those that a host's journal has.
pub fn journal(document: &Document) -> Checked {
    static WRITTEN: OnceLock<Vec<u8>> = OnceLock::new();
    let blocks = document.blocks("journal");
    same("journals", blocks.len(), 1)?;
    same("journal", &bytes(&blocks[0].join(" "))?, WRITTEN.get_or_init(written_journal))
}

fn written_journal() -> Vec<u8> {
    let path = PathBuf::from(env!("CARGO_TARGET_TMPDIR")).join("protocol.journal");
    fs::remove_file(&path).ok();
    let mut lounge = JournaledLounge::open(&path).expect("a new journal");
    for command in [Command::Open { day: 1 }, Command::Expire] {
        lounge.give(&command).expect("kept").expect("accepted");
    }
    fs::read(&path).expect("a journal")
}
