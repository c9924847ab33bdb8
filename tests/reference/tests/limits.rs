//! "Run too: 15 and 16 numbers in a way, 200 and 201 tickets", and the far ends
//! of the numbers.

mod checks;

use checks::{Desk, FIRST_TWENTY, LAST_TWENTY, STRAIGHT};
use reference::command::{Answer, Command};
use reference::{Flaw, House};

fn desk() -> Desk {
    Desk::new(Flaw::None)
}

#[test]
fn fifteen_and_sixteen_numbers_in_a_way() {
    let mut desk = desk();
    let numbers: Vec<u8> = (1..=16).collect();
    assert_eq!(desk.sell(0, 1, 100, &[&numbers[..15]], STRAIGHT).code, 0);
    assert_eq!(desk.sell(0, 1, 100, &[&numbers], STRAIGHT).code, 12);
    // Two groups whose pair has 15, then 16, on a Special One.
    assert_eq!(desk.sell(2, 1, 100, &[&numbers[..7], &numbers[7..15]], 3).code, 0);
    assert_eq!(desk.sell(2, 1, 100, &[&numbers[..7], &numbers[7..]], 3).code, 12);
    assert_eq!(desk.sell(2, 1, 100, &[&numbers[..7], &numbers[7..]], 1).code, 0);
    assert_eq!(desk.draw(&FIRST_TWENTY).code, 0);
    desk.difference.expect("house and sheet agree");
}

#[test]
fn two_hundred_and_two_hundred_and_one_tickets() {
    let mut desk = desk();
    for _ticket in 1..=200 {
        desk.straight(0, 1, 100, &[1]);
    }
    assert_eq!(desk.sell(0, 1, 100, &[&[1]], STRAIGHT).code, 16);
    // Won and unclaimed tickets are live.
    desk.draw(&FIRST_TWENTY);
    assert_eq!(desk.sell(0, 1, 100, &[&[1]], STRAIGHT).code, 16);
    assert_eq!(desk.pays(200), 300);
    assert_eq!(desk.sell(0, 1, 100, &[&[80]], STRAIGHT).number, 201);
    assert_eq!(desk.sell(0, 1, 100, &[&[80]], STRAIGHT).code, 16);
    // A lost ticket closes by itself.
    desk.draw(&FIRST_TWENTY);
    assert_eq!(desk.sell(0, 1, 100, &[&[80]], STRAIGHT).number, 202);
    // An expired one is closed.
    desk.open(400);
    assert_eq!(desk.expire(), Answer::accepted(199, 199 * 300));
    assert_eq!(desk.house.live_tickets().count(), 1);
    desk.difference.expect("house and sheet agree");
}

/// The finishing day is the day the last game goes, not the day of the sale nor
/// of the win; and an unfinished ticket does not expire.
#[test]
fn the_year_runs_from_the_finishing_day() {
    let mut desk = desk();
    let ticket = desk.straight(0, 2, 100, &[1]);
    desk.draw(&FIRST_TWENTY);
    // 1 March 2000, and 1 and 2 March 2001.
    desk.open(791);
    assert_eq!(desk.expire(), Answer::accepted(0, 0));
    desk.draw(&LAST_TWENTY);
    desk.open(1_156);
    assert_eq!(desk.expire(), Answer::accepted(0, 0));
    desk.open(1_157);
    assert_eq!(desk.expire(), Answer::accepted(1, 300));
    assert_eq!(desk.claim(ticket).code, 19);
    desk.difference.expect("house and sheet agree");
}

/// Days at the end of their two bytes do not wrap round. Day 65,535 is 5 June
/// 2177: what finished on 4 June 2176 expires on it, and nothing later does.
#[test]
fn the_last_days() {
    let mut desk = desk();
    for (day, stake) in [(65_169, 100), (65_170, 200), (65_300, 400)] {
        desk.open(day);
        desk.straight(0, 1, stake, &[1]);
        desk.draw(&FIRST_TWENTY);
    }
    desk.open(65_534);
    assert_eq!(desk.expire(), Answer::accepted(0, 0));
    desk.open(65_535);
    assert_eq!(desk.expire(), Answer::accepted(1, 300));
    assert_eq!(desk.open(65_535).code, 5);
    desk.difference.expect("house and sheet agree");
}

/// What a seasoned house says of itself: the same as one that walked there.
#[test]
fn a_seasoned_house_is_one_that_walked_there() {
    let mut walked = House::fresh();
    walked.command(&Command::Open { day: 3 });
    for _ticket in 0..300 {
        let sale = walked.command(&Command::sell(0, 1, 100, &[&[1]], STRAIGHT));
        walked.command(&Command::Cancel { ticket: sale.number });
    }
    for number in FIRST_TWENTY.repeat(70) {
        walked.command(&Command::Ball { number });
    }
    let mut seasoned = House::seasoned(3, 70, 300);
    assert_eq!(seasoned.game(), walked.game());
    let commands = [
        Command::Cancel { ticket: 300 },
        Command::Claim { ticket: 301 },
        Command::sell(1, 1, 100, &[&[1, 2, 3, 4, 5, 6]], STRAIGHT),
        Command::Cancel { ticket: 301 },
        Command::Cancel { ticket: 301 },
        Command::Open { day: 4 },
    ];
    for command in commands {
        assert_eq!(seasoned.command(&command), walked.command(&command), "{command:?}");
        assert_eq!(seasoned.till(), walked.till());
        assert_eq!(seasoned.pools(), walked.pools());
    }
}
