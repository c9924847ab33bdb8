//! The proved core and the reference side by side: the same rolls into both,
//! and everything that comes out compared.

// Each test file uses some of it.
#![allow(dead_code)]

pub mod edges;
pub mod lucky;

use reference::command::{length, BALL};
use reference::roll::{ANSWER_BYTES, STOP_BOOK_FULL};
use reference::till::FIGURES;
use reference::{run_roll, Cents, Flaw, House};
use rolls::coverage::wrong_answer;
use rolls::{Coverage, Features};
use std::fmt::Debug;
use wulipday::{Lounge, Refusal, Report, Stop};

/// What the two do not agree on.
pub type Difference = String;

/// What a lent byte holds before it is written.
const BLANK: u8 = 0xA5;

/// Both houses, and what they have answered so far.
pub struct Pair {
    lounge: Lounge,
    house: House,
    pub counts: Counts,
}

/// What was compared, over all houses of a test.
#[derive(Default)]
pub struct Counts {
    /// What each side has answered.
    pub proved: Coverage,
    pub reference: Coverage,
    pub commands: u64,
    /// Comparisons of till, pools and live list.
    pub tills: u64,
    /// Games in which the cut floored prizes more than once, where commands
    /// were run one by one.
    pub repeated_cuts: u64,
    /// What became of features there.
    pub features: Features,
}

/// How far one roll was read, and the code of its last answer.
pub struct Reading {
    pub stop: u8,
    pub read: usize,
    pub code: u8,
}

impl Counts {
    pub fn sides(&self) -> [(&'static str, &Coverage); 2] {
        [("proved", &self.proved), ("reference", &self.reference)]
    }

    /// Counts the records that each side has written, whether they agree or not: what no
    /// house may answer is no agreement where both answer it.
    pub fn count(&mut self, proved: &[u8], reference: &[u8]) -> Result<(), Difference> {
        for (side, records) in [("proved", proved), ("reference", reference)] {
            wrong_answer(records).map_or(Ok(()), |found| Err(format!("{side}: {found}")))?;
        }
        self.proved.count_book(proved);
        self.reference.count_book(reference);
        Ok(())
    }

    fn count_stops(&mut self, proved: u8, reference: u8) {
        self.proved.count_stop(proved);
        self.reference.count_stop(reference);
    }

    /// Fails where a code or a stop was not met by both sides, apart from the exempt codes.
    pub fn check(&self, exempt: &[u8]) -> Result<(), String> {
        self.sides().into_iter().try_for_each(|(side, coverage)| {
            coverage.check(exempt).map_err(|found| format!("{side}: {found}"))
        })
    }
}

impl Pair {
    pub fn fresh() -> Pair {
        Pair::flawed(Flaw::None)
    }

    /// The proved core, in buffers full of something, beside a reference with a
    /// flaw.
    pub fn flawed(flaw: Flaw) -> Pair {
        let rows = Box::new([u64::MAX; 3_200]);
        let marks = Box::new([BLANK; 16_000]);
        Pair::of(Lounge::fresh_in(rows, marks), House::flawed(flaw))
    }

    pub fn of(lounge: Lounge, house: House) -> Pair {
        Pair { lounge, house, counts: Counts::default() }
    }

    /// Both begin anew; the counts go on.
    pub fn start_anew(&mut self) {
        let fresh = Pair::fresh();
        self.lounge = fresh.lounge;
        self.house = fresh.house;
    }

    /// Reads one roll into a book of so many bytes.
    pub fn read(&mut self, roll: &[u8], book_bytes: usize) -> Result<Reading, Difference> {
        let mut proved_book = vec![BLANK; book_bytes];
        let mut reference_book = proved_book.clone();
        let proved = self.lounge.roll(roll, &mut proved_book);
        let reference = run_roll(&mut self.house, roll, &mut reference_book);
        same("stop", proved.stop.number(), reference.stop)?;
        same("bytes read", proved.read, reference.read)?;
        same("answers", proved.answers, reference.answers)?;
        let (records, beyond) = proved_book.split_at(proved.answers * ANSWER_BYTES);
        let reference_records = &reference_book[..records.len()];
        self.counts.count(records, reference_records)?;
        let both = records.chunks(ANSWER_BYTES).zip(reference_records.chunks(ANSWER_BYTES));
        for (place, (proved, reference)) in both.enumerate() {
            same(&format!("answer {place}"), proved, reference)?;
        }
        same("book beyond its answers", beyond, &vec![BLANK; beyond.len()])?;
        self.counts.count_stops(proved.stop.number(), reference.stop);
        self.counts.commands += proved.answers as u64;
        let code = records.chunks(ANSWER_BYTES).last().map_or(0, |record| record[1]);
        Ok(Reading { stop: proved.stop.number(), read: proved.read, code })
    }

    /// Reads a roll to its end through a book that is emptied whenever it is
    /// full, and compares the houses after each.
    pub fn read_through(&mut self, roll: &[u8], book_bytes: usize) -> Result<(), Difference> {
        let mut unread = roll;
        loop {
            let reading = self.read(unread, book_bytes)?;
            self.compare()?;
            unread = &unread[reading.read..];
            if reading.stop != STOP_BOOK_FULL || reading.read == 0 {
                return Ok(());
            }
        }
    }

    /// Reads a roll command by command, each a roll of its own, and compares
    /// the houses after each.
    pub fn read_by_command(&mut self, roll: &[u8]) -> Result<(), Difference> {
        let mut unread = roll;
        let mut place = 0;
        while let Some(size) = whole_command(unread) {
            let (command, rest) = unread.split_at(size);
            self.read_command(command).map_err(|found| format!("command {place}: {found}"))?;
            unread = rest;
            place += 1;
        }
        self.read(unread, ANSWER_BYTES).map(|_| ())
    }

    /// Gives the house one command of a roll after another, with all the rest of
    /// the roll behind it, and compares the houses after each.
    pub fn give_one_by_one(&mut self, roll: &[u8]) -> Result<(), Difference> {
        let mut unread = roll;
        for place in 0.. {
            let at = |found| format!("command {place}: {found}");
            let proved = self.give_first(unread).map_err(at)?;
            self.compare().map_err(at)?;
            unread = &unread[proved.read..];
            if proved.stop != Stop::BookFull {
                break;
            }
        }
        Ok(())
    }

    /// The first command of the bytes: for the reference a roll with a book of one
    /// answer. Refused, or no command, it must leave every byte of the house, the
    /// rows and the marks as it was.
    fn give_first(&mut self, bytes: &[u8]) -> Result<Report, Difference> {
        let before = self.lounge.clone();
        let mut answer = [BLANK; ANSWER_BYTES];
        let mut book = answer;
        let proved = self.lounge.command(bytes, &mut answer);
        let reference = run_roll(&mut self.house, bytes, &mut book);
        same("stop", proved.stop.number(), reference.stop)?;
        same("bytes read", proved.read, reference.read)?;
        same("answers", proved.answers, reference.answers)?;
        let written = proved.answers * ANSWER_BYTES;
        self.counts.count(&answer[..written], &book[..written])?;
        same("answer", answer, book)?;
        if (proved.answers == 0 || answer[1] != 0) && before != self.lounge {
            return Err("what was not carried out left a trace".into());
        }
        self.counts.count_stops(proved.stop.number(), reference.stop);
        self.counts.commands += proved.answers as u64;
        Ok(proved)
    }

    /// One command. Refused, it must leave every byte of the house, the rows
    /// and the marks as it was.
    fn read_command(&mut self, command: &[u8]) -> Result<(), Difference> {
        let before = self.lounge.clone();
        let game = self.house.game();
        let reading = self.read(command, ANSWER_BYTES)?;
        self.compare()?;
        if reading.code != 0 && before != self.lounge {
            return Err("a refused command left a trace".into());
        }
        let settlement = self.house.last_settlement();
        if command[0] == BALL && self.house.game() != game {
            let rounds = settlement.map_or(0, |settlement| settlement.cut_rounds);
            self.counts.repeated_cuts += u64::from(rounds > 1);
            self.counts.features.count_last_game(&self.house);
        }
        Ok(())
    }

    /// Till, pools and live list.
    pub fn compare(&mut self) -> Result<(), Difference> {
        self.counts.tills += 1;
        let figures = self.lounge.till().figures().into_iter().zip(self.house.till());
        for (name, (proved, reference)) in FIGURES.iter().zip(figures) {
            same(name, proved, reference)?;
        }
        let pools = self.lounge.pools();
        let reference = self.house.pools();
        same("pools of six", jackpot(&pools.six), reference_jackpot(&reference.six))?;
        same("pools of eight", jackpot(&pools.eight), reference_jackpot(&reference.eight))?;
        self.compare_live_lists()
    }

    /// Whole buffers: one that just serves, two with room to spare, and one that
    /// is a byte short, which both leave as it was.
    fn compare_live_lists(&self) -> Result<(), Difference> {
        let live = self.house.live_tickets().count();
        let bytes = 4 * live;
        for room in [bytes, bytes + 1, bytes + 9] {
            let [proved, reference] = self.live_lists(room);
            same("live tickets", proved.0, Ok(live as u32))?;
            same("live list", proved, reference)?;
        }
        if live > 0 {
            let untouched = (Err(Refusal::ShortBuffer.number()), vec![BLANK; bytes - 1]);
            let [proved, reference] = self.live_lists(bytes - 1);
            same("short live list", &proved, &untouched)?;
            same("short live list", &untouched, &reference)?;
        }
        Ok(())
    }

    /// What each of the two answers, and the buffer of so many bytes after it.
    fn live_lists(&self, room: usize) -> [(Result<u32, u8>, Vec<u8>); 2] {
        let mut proved = vec![BLANK; room];
        let mut reference = proved.clone();
        let listed = self.lounge.live_list(&mut proved).map_err(Refusal::number);
        [(listed, proved), (self.house.live_list(&mut reference), reference)]
    }
}

fn same<T: PartialEq + Debug>(what: &str, proved: T, reference: T) -> Result<(), Difference> {
    if proved == reference {
        return Ok(());
    }
    Err(format!("{what}: proved {proved:?}, reference {reference:?}"))
}

/// The size of the whole known command that a roll begins with.
fn whole_command(roll: &[u8]) -> Option<usize> {
    let size = length(*roll.first()?)?;
    (size <= roll.len()).then_some(size)
}

pub fn jackpot(pools: &wulipday::Jackpot) -> [Cents; 4] {
    [pools.primary, pools.secondary, pools.reimbursement, pools.debt].map(Cents::from)
}

pub fn reference_jackpot(pools: &reference::Jackpot) -> [Cents; 4] {
    [pools.primary, pools.secondary, pools.reimbursement, pools.debt]
}
