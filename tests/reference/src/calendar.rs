//! "A year by the calendar": days as dates, and when a ticket's year is over.
//!
//! Whether it is over is told by comparing dates; days are not counted for it.

use crate::flaw::Flaw;
use std::fmt;

/// Day 1 is 1 January of this year.
const FIRST_YEAR: u32 = 1998;

const MONTHS: [&str; 12] = [
    "January",
    "February",
    "March",
    "April",
    "May",
    "June",
    "July",
    "August",
    "September",
    "October",
    "November",
    "December",
];

/// Of two dates the later is the greater: by the year, then the month, then the
/// day.
#[derive(Clone, Copy, Debug, PartialEq, Eq, PartialOrd, Ord)]
pub struct Date {
    pub year: u32,
    /// 1 to 12.
    pub month: u32,
    /// 1 to 31.
    pub day: u32,
}

impl Date {
    /// The same date of the next year; 29 February counts as 28 February.
    pub fn a_year_on(self) -> Date {
        let counted = if (self.month, self.day) == (2, 29) { 28 } else { self.day };
        Date { year: self.year + 1, month: self.month, day: counted }
    }
}

/// 1 March 1999.
impl fmt::Display for Date {
    fn fmt(&self, formatter: &mut fmt::Formatter) -> fmt::Result {
        let month = MONTHS[self.month as usize - 1];
        write!(formatter, "{} {month} {}", self.day, self.year)
    }
}

/// Which date each day has.
#[derive(Clone, Copy, Debug)]
pub struct Calendar {
    flaw: Flaw,
}

impl Calendar {
    pub const GREGORIAN: Calendar = Calendar { flaw: Flaw::None };

    /// The calendar of a house with a flaw.
    pub fn flawed(flaw: Flaw) -> Calendar {
        Calendar { flaw }
    }

    pub fn is_leap_year(self, year: u32) -> bool {
        if self.flaw == Flaw::EveryFourthYearLeaps {
            return year.is_multiple_of(4);
        }
        year.is_multiple_of(4) && !year.is_multiple_of(100) || year.is_multiple_of(400)
    }

    pub fn days_in_year(self, year: u32) -> u32 {
        if self.is_leap_year(year) {
            366
        } else {
            365
        }
    }

    pub fn days_in_month(self, year: u32, month: u32) -> u32 {
        match month {
            2 if self.is_leap_year(year) => 29,
            2 => 28,
            4 | 6 | 9 | 11 => 30,
            _ => 31,
        }
    }

    /// The date of a day, from day 1 on.
    pub fn date(self, day: u16) -> Date {
        assert!(day > 0, "day 0 has no date");
        let mut date = Date { year: FIRST_YEAR, month: 1, day: u32::from(day) };
        while date.day > self.days_in_year(date.year) {
            date.day -= self.days_in_year(date.year);
            date.year += 1;
        }
        while date.day > self.days_in_month(date.year, date.month) {
            date.day -= self.days_in_month(date.year, date.month);
            date.month += 1;
        }
        date
    }

    /// The day that has this date. It may be past the last that an Open can name.
    pub fn day(self, date: Date) -> u32 {
        let years = (FIRST_YEAR..date.year).map(|year| self.days_in_year(year));
        let months = (1..date.month).map(|month| self.days_in_month(date.year, month));
        years.sum::<u32>() + months.sum::<u32>() + date.day
    }

    /// The last day on which a ticket that finished on this day has not expired.
    pub fn stands_through(self, finishing_day: u16) -> u32 {
        self.day(self.date(finishing_day).a_year_on())
    }

    /// Tells of a finishing day whether a ticket has expired by today: today is
    /// later than its finishing date a year on.
    pub fn expired_by(self, today: u16) -> impl Fn(u16) -> bool {
        let date_today = self.date(today);
        move |finishing_day| {
            if self.flaw == Flaw::YearOf365Days {
                return u32::from(finishing_day) + 365 < u32::from(today);
            }
            date_today > self.date(finishing_day).a_year_on()
        }
    }
}
