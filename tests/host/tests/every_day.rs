//! The proved core's calendar on every day from 1 January 1998 to 5 June 2177, the
//! last that an Open can name: for each of them, the day on which Expire takes a
//! ticket that finished on it.
//!
//! No more than 200 tickets can be live, so odd and even finishing days have a
//! house each, which is opened on every day there is. Two things are compared day
//! by day: every answer of the core with that of a reference house beside it; and
//! the answer to Expire, and the live list after it, with what the reference's
//! calendar says of each finishing day by itself.

use reference::roll::{read_answer, ANSWER_BYTES};
use reference::{run_roll, Answer, Calendar, Command, House};
use std::collections::VecDeque;
use wulipday::{Lounge, Stop};

/// The most that a day's roll has: Open, Expire, Sell and twenty balls.
const COMMANDS_A_DAY: usize = 23;

/// Tickets that finish within sixty days of each other win different sums.
fn stake(finishing_day: u16) -> u32 {
    100 + 100 * u32::from(finishing_day % 60)
}

fn won(finishing_day: u16) -> u64 {
    3 * u64::from(stake(finishing_day))
}

/// A ticket on number 1, and balls 1 to 20.
fn sale_and_game(day: u16) -> Vec<u8> {
    let mut roll = Command::sell(0, 1, stake(day), &[&[1]], 1).encode();
    roll.extend((1..=20).flat_map(|number| Command::Ball { number }.encode()));
    roll
}

struct Walk {
    lounge: Lounge,
    house: House,
    /// The finishing days of the tickets that are to be live, in number order.
    standing: VecDeque<u16>,
    /// How many tickets have expired, which are the first ones.
    expired: u32,
}

impl Walk {
    fn fresh() -> Walk {
        let (lounge, house) = (Lounge::fresh(), House::fresh());
        Walk { lounge, house, standing: VecDeque::new(), expired: 0 }
    }

    /// Opens the day and lets tickets expire; then one is sold and finishes, if
    /// this is its day.
    fn day(&mut self, today: u16, finishing_day: bool) {
        let mut roll = Command::Open { day: today }.encode();
        roll.extend(Command::Expire.encode());
        if finishing_day {
            roll.extend(sale_and_game(today));
        }
        let book = self.run(&roll);
        let (_, expire) = read_answer(&book[ANSWER_BYTES..]);
        assert_eq!(expire, self.expire(today), "day {today}");
        if finishing_day {
            self.standing.push_back(today);
        }
        let numbers = (self.expired + 1..).take(self.standing.len());
        assert!(self.lounge.live_tickets().into_iter().eq(numbers), "day {today}");
    }

    /// The core's answers to a roll, which are the reference's.
    fn run(&mut self, roll: &[u8]) -> [u8; COMMANDS_A_DAY * ANSWER_BYTES] {
        let mut book = [0; COMMANDS_A_DAY * ANSWER_BYTES];
        let mut reference_book = book;
        let report = self.lounge.roll(roll, &mut book);
        assert_eq!((report.stop, report.read), (Stop::End, roll.len()));
        run_roll(&mut self.house, roll, &mut reference_book);
        let both = book.chunks(ANSWER_BYTES).zip(reference_book.chunks(ANSWER_BYTES));
        for (proved, reference) in both {
            let today = self.house.today();
            assert_eq!(read_answer(proved), read_answer(reference), "day {today}");
        }
        book
    }

    /// What an Expire takes by the calendar. The tickets are in the order of their
    /// finishing days, so that those whose year is over come first.
    fn expire(&mut self, today: u16) -> Answer {
        let is_over = |&day: &u16| Calendar::GREGORIAN.stands_through(day) < u32::from(today);
        let mut expected = Answer::accepted(0, 0);
        while let Some(finishing_day) = self.standing.front().copied().filter(is_over) {
            self.standing.pop_front();
            self.expired += 1;
            expected.number += 1;
            expected.cents += won(finishing_day);
        }
        expected
    }
}

/// Every day is opened, and tickets finish on each second one, from the first on.
/// Those that never expire finish on the last days, from the one told on.
fn walk(first: u16, last_ones: u16) {
    let mut walk = Walk::fresh();
    for day in 1..=u16::MAX {
        walk.day(day, day >= first && (day - first).is_multiple_of(2));
    }
    let never_taken: Vec<u16> = (last_ones..=u16::MAX).step_by(2).collect();
    assert_eq!(walk.standing, never_taken);
    let till = walk.lounge.till();
    assert_eq!(till.owed, never_taken.iter().map(|&day| won(day)).sum::<u64>());
    assert_eq!(till.figures(), walk.house.till());
}

#[test]
fn every_odd_finishing_day() {
    walk(1, 65_171);
}

#[test]
fn every_even_finishing_day() {
    walk(2, 65_170);
}

/// The day on which the core's Expire takes a ticket that finished on this one,
/// given on each day about a year later.
fn taken_on(finishing_day: u16) -> Option<u16> {
    let mut lounge = Lounge::fresh();
    let mut book = [0; COMMANDS_A_DAY * ANSWER_BYTES];
    let open = |day| Command::Open { day }.encode();
    lounge.roll(&[open(finishing_day), sale_and_game(finishing_day)].concat(), &mut book);
    let days = finishing_day + 360..finishing_day.saturating_add(370);
    days.into_iter().find(|&day| {
        lounge.roll(&[open(day), Command::Expire.encode()].concat(), &mut book);
        let (_, expire) = read_answer(&book[ANSWER_BYTES..]);
        expire == Answer::accepted(1, won(finishing_day))
    })
}

/// 28 February and 1 March 1999; 28 and 29 February and 1 March 2000.
#[test]
fn the_year_2000_is_a_leap_year() {
    assert_eq!([424, 425].map(taken_on), [Some(790), Some(792)]);
    assert_eq!([789, 790, 791].map(taken_on), [Some(1_156), Some(1_156), Some(1_157)]);
}

/// 28 February and 1 March 2099, and the same of 2100, a day after each other.
#[test]
fn the_year_2100_is_none() {
    assert_eq!([36_949, 36_950].map(taken_on), [Some(37_315), Some(37_316)]);
    assert_eq!([37_314, 37_315].map(taken_on), [Some(37_680), Some(37_681)]);
}
