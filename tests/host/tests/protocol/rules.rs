//! The rules that decide money.

use crate::document::{number, numbers, same, span, Document, Row};
use crate::Checked;
use reference::jackpots::{shares, Jackpots};
use reference::price::{paid_games, stake_in_order, MOST_CHARGE, MOST_GAMES};
use reference::prizes::{cut, CAP, MAJOR, MAJORS_TOGETHER};
use reference::schedule::{lucky_last, special_one, special_two, standard};
use reference::{ways, Calendar, Flaw, House, Kind};

pub fn limits(document: &Document) -> Checked {
    let limits = [
        ("numbers on the board", ways::NUMBERS as i128),
        ("balls in a game", House::BALLS_IN_A_GAME as i128),
        ("live tickets", House::MOST_LIVE_TICKETS as i128),
        ("last ticket number", i128::from(House::LAST_TICKET)),
        ("last game", i128::from(House::LAST_GAME)),
        ("dearest ticket, cents", MOST_CHARGE),
        ("most that a way wins, jackpot tickets aside, cents", CAP),
        ("least major prize, cents", MAJOR),
        ("major prizes of a game together, cents", MAJORS_TOGETHER),
    ];
    let rows = document.table("Limit", "Number");
    same("limits", rows.len(), limits.len())?;
    for (row, (name, limit)) in rows.iter().zip(limits) {
        same("limit", row[0], name)?;
        same(name, number(row[1])?, limit)?;
    }
    Ok(())
}

/// Which sizes each kind takes.
pub fn kinds(document: &Document) -> Checked {
    let rows = document.table("Kind", "Name");
    let names = ["standard", "jackpot", "Special One", "Special Two"];
    same("kinds", rows.len(), names.len())?;
    for ((row, name), byte) in rows.iter().zip(names).zip(0..) {
        same(name, number(row[0])?, i128::from(byte))?;
        same("kind", row[1], name)?;
        let kind = Kind::from_byte(byte).ok_or("no such kind")?;
        for size in 1..=20 {
            let said = match row[2].split_once(" or ") {
                Some((one, other)) => [number(one)?, number(other)?].contains(&size),
                None => span(row[2])?.contains(&size),
            };
            same(&format!("{name}, ways of {size}"), said, kind.allows_sizes(&[size as usize]))?;
        }
    }
    same("kinds", Kind::from_byte(names.len() as u8), None)
}

/// The least stake by ways, and the free games.
pub fn prices(document: &Document) -> Checked {
    let mut ways = 1;
    for row in document.table("Ways", "Least stake") {
        same("ways", *span(row[0])?.start(), ways)?;
        for count in span(row[0])? {
            let in_order = |stake: &i128| stake_in_order(Kind::Standard, count as usize, *stake);
            let least = (0..=1_000).find(in_order).ok_or("no stake")?;
            same(&format!("least stake of {count} ways"), number(row[1])?, least)?;
        }
        ways = span(row[0])?.end() + 1;
    }
    same("ways", ways, 256)?;
    let mut games = 1;
    for row in document.table("Games", "Free games") {
        same("games", *span(row[0])?.start(), games)?;
        for count in span(row[0])? {
            let free = count - i128::from(paid_games(count as u32));
            same(&format!("free games of {count}"), number(row[1])?, free)?;
        }
        games = span(row[0])?.end() + 1;
    }
    same("games", games, i128::from(MOST_GAMES) + 1)
}

/// Every cell, empty ones too.
pub fn schedules(document: &Document) -> Checked {
    let columns = |from: usize, to: usize| (from..=to).collect::<Vec<usize>>();
    schedule(document, "standard", &columns(1, 15), standard)?;
    schedule(document, "Special One", &[6, 8], special_one)?;
    schedule(document, "Special Two", &columns(3, 6), special_two)
}

fn schedule(
    document: &Document,
    name: &str,
    columns: &[usize],
    dollars: fn(usize, usize) -> u32,
) -> Checked {
    let rows = rows_by_numbers(document, "Matched", columns);
    let rows = rows.get(2..).ok_or_else(|| format!("no schedule for {name}"))?;
    let matched: Vec<i128> = rows.iter().map(|row| number(row[0])).collect::<Result<_, _>>()?;
    for hits in 0..=20 {
        let row = matched.iter().position(|&said| said == hits).map(|place| &rows[place]);
        for (place, &selected) in columns.iter().enumerate() {
            let cell = row.and_then(|row| row.get(place + 1).copied()).unwrap_or_default();
            let said = if cell.is_empty() { 0 } else { number(cell)? };
            let paid = i128::from(dollars(selected, hits as usize));
            same(&format!("{name}, {hits} of {selected}"), said, paid)?;
        }
    }
    let rising = matched.windows(2).all(|pair| pair[0] < pair[1]);
    same(&format!("{name}, rows rise"), rising, true)
}

/// The table with this first heading and a column for each count of numbers.
fn rows_by_numbers<'a>(document: &Document<'a>, first: &str, columns: &[usize]) -> Vec<Row<'a>> {
    let columns: Vec<String> = columns.iter().map(usize::to_string).collect();
    let headings = [first].into_iter().chain(columns.iter().map(String::as_str));
    document.table_with_headings(&headings.collect::<Vec<&str>>())
}

/// The schedule of Lucky Last, for every size that a standard way may have.
pub fn feature(document: &Document) -> Checked {
    let sizes: Vec<usize> = (1..=80).filter(|&size| Kind::Standard.allows_sizes(&[size])).collect();
    let rows = rows_by_numbers(document, "Numbers", &sizes);
    let [_, _, cents] = &rows[..] else { return Err("no schedule for Lucky Last".to_string()) };
    same("Lucky Last", cents[0], "Cents")?;
    let said = cents[1..].iter().map(|cell| number(cell)).collect::<Result<Vec<i128>, _>>()?;
    let paid = sizes.iter().map(|&size| i128::from(lucky_last(size)));
    same("Lucky Last, cents for a dollar", said, paid.collect())
}

pub fn cuts(document: &Document) -> Checked {
    let rows = document.table("Major prizes", "Paid");
    same("cuts", rows.len(), 3)?;
    for row in rows {
        same("cut", numbers(row[1])?, cut(&numbers(row[0])?, Flaw::None).prizes)?;
    }
    Ok(())
}

pub fn jackpots(document: &Document) -> Checked {
    let guarantees: Vec<(i128, i128)> = document
        .table("Jackpot", "Guarantee")
        .iter()
        .map(|row| Ok((number(row[0])?, number(row[1])?)))
        .collect::<Result<_, String>>()?;
    let expected = [(6, Jackpots::GUARANTEE_OF_SIX), (8, Jackpots::GUARANTEE_OF_EIGHT)];
    same("guarantees", &guarantees[..], &expected)?;
    contributions(document)?;
    let rows = document.table("Primary pool", "Stakes");
    same("shares", rows.len(), 5)?;
    for row in rows {
        let found = shares(number(row[0])?, &numbers(row[1])?, Flaw::None);
        same("shares", numbers(row[2])?, found)?;
    }
    Ok(())
}

/// Finishing days, the last days of what finished on them, and the dates of both.
pub fn expiry(document: &Document) -> Checked {
    let rows = document.table("Finishing day", "Its date");
    same("finishing days", rows.len(), 7)?;
    for row in rows {
        same(row[0], row[1].to_string(), date_of(row[0])?)?;
        let last = Calendar::GREGORIAN.stands_through(day(row[0])?);
        same(row[1], number(row[2])?, i128::from(last))?;
        same(row[2], row[3].to_string(), date_of(row[2])?)?;
    }
    Ok(())
}

/// A day that an Open can name.
fn day(cell: &str) -> Result<u16, String> {
    let day = u16::try_from(number(cell)?).ok().filter(|&day| day > 0);
    day.ok_or_else(|| format!("{cell:?} is no day"))
}

fn date_of(cell: &str) -> Result<String, String> {
    Ok(Calendar::GREGORIAN.date(day(cell)?).to_string())
}

fn contributions(document: &Document) -> Checked {
    let mut pools = Jackpots::fresh().six;
    pools.contribute(100);
    let primary = pools.primary - Jackpots::GUARANTEE_OF_SIX;
    let found = [
        ("primary", primary),
        ("secondary", pools.secondary),
        ("reimbursement", pools.reimbursement),
    ];
    let rows = document.table("Pool", "Cents");
    same("pools", rows.len(), found.len())?;
    for (row, (name, cents)) in rows.iter().zip(found) {
        same("pool", row[0], name)?;
        same(name, number(row[1])?, cents)?;
    }
    Ok(())
}
