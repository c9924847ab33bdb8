//! "Collecting part way" on the true house.

mod checks;

use checks::{accepted, collecting, refused, Desk, FIRST_TWENTY, LAST_TWENTY};
use reference::command::{Answer, Command};
use reference::{Closing, Flaw, House};

#[test]
fn each_check_of_collecting_holds() {
    for (name, check) in collecting::ALL {
        check(Flaw::None).unwrap_or_else(|found| panic!("{name}: {found}"));
    }
}

fn collect(ticket: u32) -> Command {
    Command::Collect { ticket }
}

#[test]
fn codes_4_18_and_19() {
    let mut house = House::fresh();
    refused(&mut house, &collect(0), 4);
    refused(&mut house, &collect(1), 4);
    accepted(&mut house, &Command::Open { day: 1 });
    for number in [0, 1, u32::MAX] {
        refused(&mut house, &collect(number), 18);
    }

    let mut desk = Desk::new(Flaw::None);
    let cancelled = desk.straight(0, 1, 100, &[1]);
    desk.cancel(cancelled);
    let lost = desk.straight(0, 1, 100, &[80]);
    let claimed = desk.straight(0, 1, 100, &[1]);
    let expired = desk.straight(0, 1, 100, &[2]);
    let collected = desk.straight(0, 2, 100, &[3]);
    desk.draw(&FIRST_TWENTY);
    desk.claim(claimed);
    desk.collect(collected);
    desk.open(500);
    assert_eq!(desk.expire(), Answer::accepted(1, 300));
    for number in [cancelled, lost, claimed, expired, collected] {
        refused(&mut desk.house, &collect(number), 19);
    }
    refused(&mut desk.house, &collect(7), 18);
    desk.difference.expect("house and sheet agree");
}

/// A finished ticket has something due, and one with nothing due has games left: so
/// that the two never hold together.
#[test]
fn codes_33_and_34() {
    let mut desk = Desk::new(Flaw::None);
    let won = desk.straight(0, 1, 100, &[1]);
    let waiting = desk.straight(0, 3, 100, &[80]);
    let cut_short = desk.straight(0, 3, 100, &[1]);
    refused(&mut desk.house, &collect(won), 34);
    desk.draw(&FIRST_TWENTY[..19]);
    refused(&mut desk.house, &collect(won), 34);
    desk.ball(20);
    refused(&mut desk.house, &collect(won), 33);
    refused(&mut desk.house, &collect(waiting), 34);
    desk.cancel(cut_short);
    refused(&mut desk.house, &collect(cut_short), 33);
    desk.draw(&LAST_TWENTY);
    assert_eq!(desk.collect(waiting), Answer::accepted(4, 300));
    refused(&mut desk.house, &collect(4), 34);
    desk.difference.expect("house and sheet agree");
}

/// Both stand before 35; and the numbers that collections issue count.
#[test]
fn code_35_ticket_numbers_used_up() {
    let mut house = House::seasoned(1, 0, House::LAST_TICKET - 4);
    let sell = |games| Command::sell(0, games, 100, &[&[1]], 1);
    let [won, first, second] = [1, 3, 3].map(|games| accepted(&mut house, &sell(games)).number);
    let draw = |house: &mut House| {
        for number in FIRST_TWENTY {
            accepted(house, &Command::Ball { number });
        }
    };
    draw(&mut house);
    let last = accepted(&mut house, &collect(first));
    assert_eq!((last.number, last.cents), (House::LAST_TICKET, 300));
    refused(&mut house, &sell(1), 17);
    refused(&mut house, &collect(won), 33);
    refused(&mut house, &collect(House::LAST_TICKET), 34);
    refused(&mut house, &collect(second), 35);
    refused(&mut house, &collect(first), 19);
    refused(&mut house, &collect(House::LAST_TICKET + 1), 18);
    draw(&mut house);
    refused(&mut house, &collect(House::LAST_TICKET), 35);
    // What is due stays due.
    draw(&mut house);
    assert_eq!(accepted(&mut house, &Command::Claim { ticket: second }).cents, 900);
    assert_eq!(accepted(&mut house, &Command::Claim { ticket: House::LAST_TICKET }).cents, 600);
}

/// Sales and collections take their numbers in turn, without a gap.
#[test]
fn numbers_of_sales_and_collections() {
    let mut desk = Desk::new(Flaw::None);
    assert_eq!(desk.straight(0, 3, 100, &[1]), 1);
    assert_eq!(desk.lucky_last(3, 100, 100, &[1]), 2);
    desk.draw(&FIRST_TWENTY);
    assert_eq!(desk.collect(2).number, 3);
    assert_eq!(desk.straight(0, 1, 100, &[1]), 4);
    assert_eq!(desk.collect(1).number, 5);
    assert_eq!(desk.collect(1).code, 19);
    assert_eq!(desk.lucky_last(1, 100, 100, &[1]), 6);
    let numbers: Vec<u32> = desk.house.tickets().iter().map(|ticket| ticket.number).collect();
    assert_eq!(numbers, [1, 2, 3, 4, 5, 6]);
    desk.difference.expect("house and sheet agree");
}

/// The collected number is closed with the games that were drawn, and finished on the
/// day of the collection; the new one has the others, sold on the day of the sale.
#[test]
fn what_each_number_keeps() {
    let mut desk = Desk::new(Flaw::None);
    let ticket = desk.straight(0, 5, 200, &[1]);
    desk.draw(&FIRST_TWENTY);
    desk.draw(&LAST_TWENTY);
    desk.open(9);
    desk.collect(ticket);
    let [old, new] = desk.house.tickets() else { panic!("two numbers") };
    let games = |ticket: &reference::Ticket| -> Vec<u32> {
        ticket.games.iter().map(|game| game.number).collect()
    };
    assert_eq!((games(old), games(new)), (vec![1, 2], vec![3, 4, 5]));
    assert_eq!((old.closing, old.finished_on), (Some(Closing::Collected), Some(9)));
    assert_eq!((new.closing, new.finished_on), (None, None));
    assert_eq!((new.sold_on, new.reissue_of), (1, Some(ticket)));
    assert_eq!(old.terms, new.terms);
    assert_eq!((old.won(), new.won()), (600, 0));
}
