//! The calendar by itself: every day's date, every date's day, and a year on.

use reference::{Calendar, Date};

const CALENDAR: Calendar = Calendar::GREGORIAN;

fn date(day: u32, month: u32, year: u32) -> Date {
    Date { year, month, day }
}

/// The days that an Open can name.
fn days() -> impl Iterator<Item = u16> {
    1..=u16::MAX
}

#[test]
fn known_dates() {
    let known = [
        (1, date(1, 1, 1998)),
        (365, date(31, 12, 1998)),
        (366, date(1, 1, 1999)),
        (424, date(28, 2, 1999)),
        (425, date(1, 3, 1999)),
        (730, date(31, 12, 1999)),
        (731, date(1, 1, 2000)),
        (789, date(28, 2, 2000)),
        (790, date(29, 2, 2000)),
        (791, date(1, 3, 2000)),
        (1_096, date(31, 12, 2000)),
        (1_097, date(1, 1, 2001)),
        (1_155, date(28, 2, 2001)),
        (1_156, date(1, 3, 2001)),
        (2_250, date(28, 2, 2004)),
        (2_251, date(29, 2, 2004)),
        (2_252, date(1, 3, 2004)),
        (37_255, date(31, 12, 2099)),
        (37_256, date(1, 1, 2100)),
        (37_314, date(28, 2, 2100)),
        (37_315, date(1, 3, 2100)),
        (65_072, date(28, 2, 2176)),
        (65_073, date(29, 2, 2176)),
        (65_074, date(1, 3, 2176)),
        (65_379, date(31, 12, 2176)),
        (65_380, date(1, 1, 2177)),
        (65_535, date(5, 6, 2177)),
    ];
    for (day, date) in known {
        assert_eq!(CALENDAR.date(day), date, "day {day}");
        assert_eq!(CALENDAR.day(date), u32::from(day), "{date}");
    }
}

#[test]
fn dates_in_words() {
    assert_eq!(CALENDAR.date(1).to_string(), "1 January 1998");
    assert_eq!(CALENDAR.date(790).to_string(), "29 February 2000");
    assert_eq!(CALENDAR.date(730).to_string(), "31 December 1999");
}

#[test]
fn leap_years() {
    for year in [1996, 2000, 2004, 2096, 2104, 2176, 2400] {
        assert!(CALENDAR.is_leap_year(year), "{year}");
    }
    for year in [1900, 1998, 1999, 2001, 2002, 2003, 2099, 2100, 2101, 2177, 2200] {
        assert!(!CALENDAR.is_leap_year(year), "{year}");
    }
    let within = (1998..=2177).filter(|&year| CALENDAR.is_leap_year(year));
    assert_eq!(within.count(), 44);
}

#[test]
fn a_year_is_its_months() {
    for year in 1998..=2177 {
        let months = (1..=12).map(|month| CALENDAR.days_in_month(year, month));
        assert_eq!(CALENDAR.days_in_year(year), months.sum::<u32>(), "{year}");
    }
}

/// From one day to the next, by a table of months and a 29 February every four
/// years but for 2100.
#[test]
fn every_date_by_a_walk_over_the_months() {
    let lengths = [31, 28, 31, 30, 31, 30, 31, 31, 30, 31, 30, 31];
    let (mut year, mut month, mut day) = (1998, 1, 1);
    let mut next_leap_year = 2000;
    for number in days() {
        assert_eq!(CALENDAR.date(number), Date { year, month, day }, "day {number}");
        let leap_day = month == 2 && day == 28 && year == next_leap_year;
        if day < lengths[month as usize - 1] || leap_day {
            day += 1;
            continue;
        }
        (month, day) = (month + 1, 1);
        if month > 12 {
            (year, month) = (year + 1, 1);
            if year > next_leap_year {
                next_leap_year += if next_leap_year == 2096 { 8 } else { 4 };
            }
        }
    }
    assert_eq!((year, month, day), (2177, 6, 6));
}

#[test]
fn there_and_back() {
    for number in days() {
        assert_eq!(CALENDAR.day(CALENDAR.date(number)), u32::from(number));
    }
}

#[test]
fn later_days_have_later_dates() {
    for number in days().skip(1) {
        assert!(CALENDAR.date(number - 1) < CALENDAR.date(number), "day {number}");
    }
}

/// Whether a 29 February comes after one date and no later than the other, of the
/// same year or the next.
fn passes_a_leap_day(from: Date, to: Date) -> bool {
    let leap_years = [from.year, to.year].into_iter().filter(|&year| CALENDAR.is_leap_year(year));
    leap_years.map(|year| date(29, 2, year)).any(|leap_day| from < leap_day && leap_day <= to)
}

/// 366 days where a 29 February comes between, 365 otherwise; and what finishes
/// later never expires earlier.
#[test]
fn a_year_on() {
    let mut last = 0;
    for number in days() {
        let from = CALENDAR.date(number);
        let stands_through = CALENDAR.stands_through(number);
        let days = stands_through - u32::from(number);
        let over_a_leap_day = passes_a_leap_day(from, from.a_year_on());
        assert_eq!(days, if over_a_leap_day { 366 } else { 365 }, "{from}");
        assert!(last <= stands_through, "{from}");
        // 28 and 29 February alone have the same last day.
        assert_eq!(last == stands_through, (from.month, from.day) == (2, 29), "{from}");
        last = stands_through;
    }
}

#[test]
fn the_same_date_of_the_next_year() {
    assert_eq!(date(1, 3, 1999).a_year_on(), date(1, 3, 2000));
    assert_eq!(date(28, 2, 1999).a_year_on(), date(28, 2, 2000));
    assert_eq!(date(28, 2, 2000).a_year_on(), date(28, 2, 2001));
    assert_eq!(date(29, 2, 2000).a_year_on(), date(28, 2, 2001));
    assert_eq!(date(31, 12, 2099).a_year_on(), date(31, 12, 2100));
    assert_eq!(date(29, 1, 2000).a_year_on(), date(29, 1, 2001));
    assert_eq!(date(29, 3, 2000).a_year_on(), date(29, 3, 2001));
}

/// Of every finishing day: on its last day it has not expired, on the next it
/// has.
#[test]
fn expired_by_the_day_after() {
    for finishing_day in days() {
        let last = CALENDAR.stands_through(finishing_day);
        for (day, expired) in [(last - 1, false), (last, false), (last + 1, true), (last + 9, true)]
        {
            if let Ok(today) = u16::try_from(day) {
                let found = CALENDAR.expired_by(today)(finishing_day);
                assert_eq!(found, expired, "finished on {finishing_day}, today is {today}");
            }
        }
    }
}
