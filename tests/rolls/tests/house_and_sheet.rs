//! Demand 3 on every roll: house and count sheet agree, the till balances,
//! refused commands might as well not have been given, no ticket number is paid twice, by
//! a claim or by a collection, and it is paid what its own games have won and what was paid
//! for those called off. And each finished ticket that is live has something due.

use reference::roll::commands;
use reference::till::balances;
use reference::{Cents, Command, CountSheet, House};
use rolls::{everything, NamedRoll};
use std::collections::HashMap;

const SEED: u64 = 1998;

fn check(roll: &NamedRoll) {
    let mut house = House::fresh();
    let mut only_accepted = House::fresh();
    let mut sheet = CountSheet::fresh();
    let mut paid = HashMap::new();
    for (place, command) in commands(&roll.bytes).enumerate() {
        let at = || format!("{}, command {place}: {command:?}", roll.name);
        let before = (command == Command::CallOff).then(|| (house.game(), house.till()));
        let answer = house.command(&command);
        let counted = sheet.feed(&command, answer.code);
        assert_eq!((answer.number, Cents::from(answer.cents)), counted, "{}", at());
        if answer.code != 0 {
            continue;
        }
        assert_eq!(only_accepted.command(&command), answer, "{}", at());
        if let Some((game, till)) = before {
            assert_eq!((answer.number, house.game()), (game, game + 1), "{}", at());
            assert_eq!(house.till(), after_call_off(till, answer.cents.into()), "{}", at());
        }
        if let Command::Claim { ticket } | Command::Collect { ticket } = command {
            let before = paid.insert(ticket, Cents::from(answer.cents));
            assert_eq!(before, None, "{}: paid twice", at());
        }
        // Half of all commands are balls that settle nothing; what one of them
        // did to the till still shows after the next command.
        if !house.is_drawing() || !matches!(command, Command::Ball { .. }) {
            compare_tills(&house, &sheet, at);
            a_finished_ticket_has_something_due(&house, at);
        }
    }
    assert!(house == only_accepted, "{}: a refused command left a trace", roll.name);
    compare_tills(&house, &sheet, || roll.name.clone());
    for (ticket, cents) in paid {
        let due = house.tickets()[ticket as usize - 1].due();
        assert_eq!(cents, due, "{}: ticket {ticket}", roll.name);
    }
    each_game_has_one_number(&house, &roll.name);
}

/// The cents go from held to owed, and nothing else moves.
fn after_call_off(mut till: [Cents; 9], cents: Cents) -> [Cents; 9] {
    till[4] += cents;
    till[5] -= cents;
    till
}

/// The games of a sale, one after another, and of the numbers that collections made of
/// it each has its own part.
fn each_game_has_one_number(house: &House, name: &str) {
    let mut sales: Vec<u32> = Vec::new();
    let mut games: HashMap<u32, Vec<u32>> = HashMap::new();
    for ticket in house.tickets() {
        let sale = ticket.reissue_of.map_or(ticket.number, |number| sales[number as usize - 1]);
        sales.push(sale);
        games.entry(sale).or_default().extend(ticket.games.iter().map(|game| game.number));
    }
    for (sale, mut games) in games {
        let terms = &house.tickets()[sale as usize - 1].terms;
        games.sort_unstable();
        let all: Vec<u32> = (games[0]..games[0] + terms.games).collect();
        assert_eq!(games, all, "{name}: ticket {sale}");
    }
}

/// Each that is live: with nothing due it is closed, and no claim finds it.
fn a_finished_ticket_has_something_due(house: &House, at: impl Fn() -> String) {
    let mut finished = house.live_tickets().filter(|ticket| ticket.finished_on.is_some());
    let without = finished.find(|ticket| ticket.due() == 0);
    assert_eq!(without, None, "{}", at());
}

fn compare_tills(house: &House, sheet: &CountSheet, at: impl Fn() -> String) {
    let till = house.till();
    assert_eq!(till, sheet.figures(), "{}", at());
    assert!(balances(&till), "{}: {till:?}", at());
    assert_eq!(house.pools(), sheet.pools(), "{}", at());
}

#[test]
fn house_and_sheet_agree_on_every_roll() {
    everything(SEED).iter().for_each(check);
}
