//! Checks that can be run on a true house and on a flawed one.
//!
//! A check says what it found rather than stopping the test, because the test
//! of the tests wants checks to fail.

// Each test file is a program of its own and uses its part of this.
#![allow(dead_code)]

pub mod calling_off;
pub mod collecting;
pub mod dates;
pub mod examples;
pub mod lucky_last;
pub mod traps;

use reference::command::{Answer, Command};
use reference::till::balances;
use reference::{Cents, CountSheet, Flaw, House};
use std::fmt::Debug;

pub type Check = Result<(), String>;
pub type NamedCheck = (&'static str, fn(Flaw) -> Check);

/// Every check, by name.
pub fn all() -> Vec<NamedCheck> {
    [examples::ALL, traps::ALL, dates::ALL, lucky_last::ALL, collecting::ALL, calling_off::ALL]
        .concat()
}

pub fn expect<T: PartialEq + Debug>(what: &str, got: T, want: T) -> Check {
    if got == want {
        Ok(())
    } else {
        Err(format!("{what}: got {got:?}, want {want:?}"))
    }
}

/// Gives a command and wants it refused with the code, nothing changed.
#[track_caller]
pub fn refused(house: &mut House, command: &Command, code: u8) {
    let before = house.clone();
    assert_eq!(house.command(command), Answer::refused(code), "{command:?}");
    assert!(*house == before, "{command:?} changed the house");
}

#[track_caller]
pub fn accepted(house: &mut House, command: &Command) -> Answer {
    let answer = house.command(command);
    assert_eq!(answer.code, 0, "{command:?}");
    answer
}

/// Groups of numbers on a ticket, as [`Command::sell`] takes them.
pub type Groups<'a> = &'a [&'a [u8]];

/// One group, one way.
pub const STRAIGHT: u8 = 1;

/// Balls 1 to 20.
pub const FIRST_TWENTY: [u8; 20] =
    [1, 2, 3, 4, 5, 6, 7, 8, 9, 10, 11, 12, 13, 14, 15, 16, 17, 18, 19, 20];

/// Balls 61 to 80.
pub const LAST_TWENTY: [u8; 20] =
    [61, 62, 63, 64, 65, 66, 67, 68, 69, 70, 71, 72, 73, 74, 75, 76, 77, 78, 79, 80];

/// A house with the count sheet beside it, both fed the same.
pub struct Desk {
    pub house: House,
    pub sheet: CountSheet,
    /// The first difference between house and sheet, if there was one.
    pub difference: Check,
    is_flawed: bool,
}

impl Desk {
    /// A house on day 1.
    pub fn new(flaw: Flaw) -> Desk {
        let mut desk = Desk::closed(flaw);
        desk.open(1);
        desk
    }

    /// A house on day 0.
    pub fn closed(flaw: Flaw) -> Desk {
        let (house, sheet) = (House::flawed(flaw), CountSheet::fresh());
        Desk { house, sheet, difference: Ok(()), is_flawed: flaw != Flaw::None }
    }

    pub fn give(&mut self, command: &Command) -> Answer {
        let before = self.house.clone();
        let answer = self.house.command(command);
        let counted = self.sheet.feed(command, answer.code);
        let compared = self.compare(answer, counted, &before);
        self.difference = self.difference.clone().and(compared);
        answer
    }

    /// Demand 3 after one more command, and that a refusal changed nothing.
    fn compare(&self, answer: Answer, counted: (u32, Cents), before: &House) -> Check {
        expect("sheet: answer", (answer.number, Cents::from(answer.cents)), counted)?;
        expect("sheet: till", self.house.till(), self.sheet.figures())?;
        expect("sheet: pools", self.house.pools(), self.sheet.pools())?;
        expect("till balances", balances(&self.house.till()), true)?;
        expect("refusal left the house", answer.code == 0 || self.house == *before, true)
    }

    pub fn open(&mut self, day: u16) -> Answer {
        self.give(&Command::Open { day })
    }

    pub fn sell(&mut self, kind: u8, games: u8, stake: u32, groups: Groups, types: u8) -> Answer {
        self.give(&Command::sell(kind, games, stake, groups, types))
    }

    /// Sells a ticket of one way; it must be accepted.
    pub fn straight(&mut self, kind: u8, games: u8, stake: u32, numbers: &[u8]) -> u32 {
        let answer = self.sell(kind, games, stake, &[numbers], STRAIGHT);
        assert_eq!(answer.code, 0, "sale of a straight ticket");
        answer.number
    }

    /// Sells a ticket of one group with a feature; it must be accepted.
    pub fn lucky_last(&mut self, games: u8, stake: u32, feature_stake: u32, numbers: &[u8]) -> u32 {
        let answer = self.give(&Command::lucky_last(games, stake, feature_stake, numbers));
        assert_eq!(answer.code, 0, "sale of a ticket with a feature");
        answer.number
    }

    pub fn cancel(&mut self, ticket: u32) -> Answer {
        self.give(&Command::Cancel { ticket })
    }

    pub fn ball(&mut self, number: u8) -> Answer {
        self.give(&Command::Ball { number })
    }

    /// Draws the balls and gives the last one's answer. A flawed house may refuse some, which
    /// is then the difference.
    pub fn draw(&mut self, balls: &[u8]) -> Answer {
        let answers: Vec<Answer> = balls.iter().map(|&number| self.ball(number)).collect();
        let refused = answers.iter().any(|answer| answer.code != 0);
        let drawn = expect("balls refused", refused, false);
        assert!(self.is_flawed || drawn.is_ok(), "balls refused: {answers:?}");
        self.difference = self.difference.clone().and(drawn);
        *answers.last().expect("a ball")
    }

    pub fn claim(&mut self, ticket: u32) -> Answer {
        self.give(&Command::Claim { ticket })
    }

    /// What a claim pays; it must be accepted.
    pub fn pays(&mut self, ticket: u32) -> u64 {
        let answer = self.claim(ticket);
        assert_eq!((answer.code, answer.number), (0, ticket), "claim of ticket {ticket}");
        answer.cents
    }

    pub fn expire(&mut self) -> Answer {
        self.give(&Command::Expire)
    }

    pub fn collect(&mut self, ticket: u32) -> Answer {
        self.give(&Command::Collect { ticket })
    }

    pub fn call_off(&mut self) -> Answer {
        self.give(&Command::CallOff)
    }

    pub fn transfer(&mut self, jackpot: u8, cents: u32) -> Answer {
        self.give(&Command::Transfer { jackpot, cents })
    }
}
