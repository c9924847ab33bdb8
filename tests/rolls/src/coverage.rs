//! Which refusals of "Where each thing is checked", with those asked for since, a
//! set of rolls has met, and which stops of "The roll".

use reference::command::{
    BALL, CALL_OFF, CANCEL, CLAIM, COLLECT, EXPIRE, LUCKY_LAST, OPEN, SELL, TRANSFER,
};
use reference::roll::{read_answer, run_roll, ANSWER_BYTES, STOP_BOOK_FULL};
use reference::House;

/// The codes that each command can be answered with. Code 30 belongs to the live
/// list, which is on no roll.
pub const CODES: [(u8, &[u8]); 10] = [
    (OPEN, &[0, 5, 6]),
    (SELL, &[0, 4, 7, 8, 9, 10, 11, 12, 13, 14, 15, 16, 17]),
    (CANCEL, &[0, 4, 18, 19, 20, 21, 22]),
    (BALL, &[0, 4, 25, 26, 27]),
    (CLAIM, &[0, 4, 18, 19, 23]),
    (EXPIRE, &[0, 4]),
    (TRANSFER, &[0, 4, 28, 6, 29]),
    (LUCKY_LAST, &[0, 4, 7, 8, 9, 10, 11, 12, 13, 31, 14, 32, 15, 16, 17]),
    (COLLECT, &[0, 4, 18, 19, 33, 34, 35]),
    (CALL_OFF, &[0, 4, 26]),
];

/// Codes that no roll of a reasonable size reaches. 17 and 26 need 9,999,900
/// games, twenty balls each, or 9,999,999 tickets, 89 bytes each; the rolls of
/// [`crate::FarGames`] reach both by way of the games. 35 needs the tickets, and
/// [`crate::far_tickets`] has what is then left to do.
pub const FAR_CODES: [u8; 3] = [17, 26, 35];

/// What is wrong with the first record that no house may write: a code that its command
/// does not have, or an accepted claim that pays nothing.
pub fn wrong_answer(records: &[u8]) -> Option<String> {
    records.chunks_exact(ANSWER_BYTES).find_map(|record| {
        let (command, answer) = read_answer(record);
        if !has_code(command, answer.code) {
            return Some(format!("command {command} is answered {}, no code of it", answer.code));
        }
        let pays_nothing = (command, answer.code, answer.cents) == (CLAIM, 0, 0);
        pays_nothing.then(|| format!("a claim of ticket {} pays nothing", answer.number))
    })
}

fn has_code(command: u8, code: u8) -> bool {
    CODES.iter().any(|(byte, codes)| *byte == command && codes.contains(&code))
}

/// Answers and stops counted.
#[derive(Clone, Debug)]
pub struct Coverage {
    /// By command byte and code.
    answers: [[u64; 256]; 11],
    stops: [u64; 4],
}

impl Default for Coverage {
    fn default() -> Coverage {
        Coverage::new()
    }
}

impl Coverage {
    pub fn new() -> Coverage {
        Coverage { answers: [[0; 256]; 11], stops: [0; 4] }
    }

    pub fn count_answer(&mut self, command: u8, code: u8) {
        self.answers[usize::from(command)][usize::from(code)] += 1;
    }

    pub fn count_stop(&mut self, stop: u8) {
        self.stops[usize::from(stop)] += 1;
    }

    /// Counts the records of a book.
    pub fn count_book(&mut self, records: &[u8]) {
        for record in records.chunks_exact(ANSWER_BYTES) {
            let (command, answer) = read_answer(record);
            self.count_answer(command, answer.code);
        }
    }

    /// Runs a roll on a reference house with a book of so many answers, which
    /// is emptied whenever it is full, and counts what it sees.
    pub fn count_roll(&mut self, house: &mut House, roll: &[u8], book_answers: usize) {
        let mut book = vec![0; book_answers * ANSWER_BYTES];
        let mut unread = roll;
        loop {
            let report = run_roll(house, unread, &mut book);
            self.count_book(&book[..report.answers * ANSWER_BYTES]);
            self.count_stop(report.stop);
            unread = &unread[report.read..];
            if report.stop != STOP_BOOK_FULL {
                return;
            }
        }
    }

    /// How often a command was answered with the code.
    pub fn answers(&self, command: u8, code: u8) -> u64 {
        self.answers[usize::from(command)][usize::from(code)]
    }

    /// Which part of all answers was code 0, in percent.
    pub fn percent_accepted(&self) -> u64 {
        let all: u64 = self.answers.iter().flatten().sum();
        let accepted: u64 = self.answers.iter().map(|codes| codes[0]).sum();
        100 * accepted / all.max(1)
    }

    /// What was not met, apart from the exempt codes.
    pub fn missing(&self, exempt: &[u8]) -> Vec<String> {
        let mut missing = Vec::new();
        for (command, codes) in CODES {
            for &code in codes.iter().filter(|code| !exempt.contains(code)) {
                if self.answers(command, code) == 0 {
                    missing.push(format!("command {command} with code {code}"));
                }
            }
        }
        for (stop, _) in self.stops.iter().enumerate().filter(|(_, &count)| count == 0) {
            missing.push(format!("stop {stop}"));
        }
        missing
    }

    /// Answers no command can get, by the table.
    pub fn impossible(&self) -> Vec<String> {
        let mut impossible = Vec::new();
        for (command, codes) in CODES {
            for code in (0..=255).filter(|code| !codes.contains(code)) {
                if self.answers(command, code) > 0 {
                    impossible.push(format!("command {command} with code {code}"));
                }
            }
        }
        impossible
    }

    /// Fails with what is missing or impossible.
    pub fn check(&self, exempt: &[u8]) -> Result<(), String> {
        let missing = self.missing(exempt);
        let impossible = self.impossible();
        if missing.is_empty() && impossible.is_empty() {
            return Ok(());
        }
        Err(format!("never met: {}; impossible: {}", missing.join(", "), impossible.join(", ")))
    }
}
