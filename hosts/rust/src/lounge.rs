//! A house with its tickets, safe to use.

use crate::exported::{
    self, Core, Listed, Pools, Rows, RowsOfMarks, Till, ANSWER_BYTES, MARKS, WORDS,
};
use crate::{Answer, Command, Record, Refusal, Stop};

/// Bytes of a live list that no house outgrows.
const LIVE_LIST_BYTES: usize = 4 * 200;

/// The house, its rows and its marks.
///
/// It begins fresh, and nothing but [`Lounge::give`], [`Lounge::command`] and
/// [`Lounge::roll`] changes it, which is what every part of the core relies on.
/// Two lounges are equal where every byte of them is.
#[derive(Clone, Debug, PartialEq, Eq)]
pub struct Lounge {
    core: Core,
}

/// How far bytes were read.
#[derive(Clone, Copy, Debug, PartialEq, Eq)]
pub struct Report {
    /// Why reading ended.
    pub stop: Stop,
    /// Bytes of the answered commands; the unread part is `roll[read..]`.
    pub read: usize,
    /// How many commands were answered.
    pub answers: usize,
}

impl Default for Lounge {
    fn default() -> Lounge {
        Lounge::fresh()
    }
}

impl Lounge {
    /// A house in which nothing has happened.
    pub fn fresh() -> Lounge {
        Lounge::fresh_in(Box::new([0; WORDS]), Box::new([0; MARKS]))
    }

    /// A fresh house in buffers that may hold anything.
    pub fn fresh_in(rows: Rows, marks: RowsOfMarks) -> Lounge {
        Lounge { core: Core::fresh_in(rows, marks) }
    }

    /// Carries out one command, or refuses it and changes nothing.
    pub fn give(&mut self, command: &Command) -> Result<Answer, Refusal> {
        let mut record = [0; ANSWER_BYTES];
        let report = self.command(&command.encode(), &mut record);
        debug_assert_eq!(report.answers, 1);
        Record::read(&record).outcome().expect("the core answers in its own codes")
    }

    /// Carries out the first command of the bytes and writes its answer.
    ///
    /// `answers` tells what was done. With 1, the first command was carried out or
    /// refused and `read` is its bytes; the stop then only tells what comes
    /// behind it: the end, an unknown byte, a command that is cut off, or a whole
    /// one ([`Stop::BookFull`]). With 0, nothing was done or written, and the stop
    /// says why: there is no byte, an unknown one, or a command that is cut off.
    pub fn command(&mut self, command: &[u8], answer: &mut [u8; ANSWER_BYTES]) -> Report {
        Report::of(self.core.command(command, answer))
    }

    /// Runs the commands of a roll and writes [`ANSWER_BYTES`] for each into the
    /// book, up to the first place where it must stop. A refused command is
    /// answered and reading goes on. The book beyond its answers is untouched.
    ///
    /// ```
    /// use wulipday::{Command, Lounge, Record, Stop, ANSWER_BYTES};
    ///
    /// let roll = [Command::Open { day: 1 }, Command::Claim { ticket: 9 }]
    ///     .map(|command| command.encode())
    ///     .concat();
    /// let mut book = [0; 2 * ANSWER_BYTES];
    /// let report = Lounge::fresh().roll(&roll, &mut book);
    /// assert_eq!((report.stop, report.read, report.answers), (Stop::End, 8, 2));
    /// let codes: Vec<u8> = Record::all(&book).map(|record| record.code).collect();
    /// assert_eq!(codes, [0, 18]);
    /// ```
    pub fn roll(&mut self, roll: &[u8], book: &mut [u8]) -> Report {
        Report::of(self.core.roll(roll, book))
    }

    /// The nine figures.
    pub fn till(&self) -> Till {
        self.core.till()
    }

    /// Both jackpots.
    pub fn pools(&self) -> Pools {
        self.core.pools()
    }

    /// The numbers of the live tickets, rising.
    pub fn live_tickets(&self) -> Vec<u32> {
        let mut list = [0; LIVE_LIST_BYTES];
        let count = self.live_list(&mut list).expect("200 tickets have room");
        let four = |bytes: &[u8]| u32::from_be_bytes(bytes.try_into().expect("4 bytes"));
        list.chunks(4).take(count as usize).map(four).collect()
    }

    /// Writes the numbers of the live tickets in rising order, 4 bytes each, high
    /// byte first, and answers how many there are; bytes beyond the list stay as
    /// they were. Refused, with nothing written, where `out` is too short.
    pub fn live_list(&self, out: &mut [u8]) -> Result<u32, Refusal> {
        counted(self.core.live_list(out))
    }
}

/// A code that is none is no list.
fn counted(listed: Listed) -> Result<u32, Refusal> {
    match listed.code {
        0 => Ok(listed.count),
        code => Err(Refusal::from_number(code).expect("the core answers in its own codes")),
    }
}

impl Report {
    fn of(report: exported::Report) -> Report {
        let stop = Stop::from_number(report.stop).expect("the core has four stops");
        Report { stop, read: report.read, answers: report.answers }
    }
}

impl Till {
    /// The figures' names, in their order.
    pub const NAMES: [&'static str; 9] =
        ["taken", "seeds", "paid", "refunded", "owed", "held", "unclaimed", "pooled", "retained"];

    /// What the house has kept, below zero where it has lost.
    pub fn retained_cents(&self) -> i128 {
        let size = i128::from(self.retained);
        if self.negative {
            -size
        } else {
            size
        }
    }

    /// The figures in their order, in cents.
    pub fn figures(&self) -> [i128; 9] {
        let unsigned = [
            self.taken,
            self.seeds,
            self.paid,
            self.refunded,
            self.owed,
            self.held,
            self.unclaimed,
            self.pooled,
            0,
        ];
        let mut figures = unsigned.map(i128::from);
        figures[8] = self.retained_cents();
        figures
    }
}

#[cfg(test)]
mod tests {
    use super::*;

    #[test]
    fn a_list_or_its_refusal() {
        assert_eq!(counted(Listed { code: 0, count: 7 }), Ok(7));
        assert_eq!(counted(Listed { code: 30, count: 0 }), Err(Refusal::ShortBuffer));
    }

    #[test]
    #[should_panic(expected = "the core answers in its own codes")]
    fn a_code_that_is_none_is_no_list() {
        counted(Listed { code: 24, count: 7 }).ok();
    }
}
