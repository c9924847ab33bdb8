//! "A game called off" on the true house.

mod checks;

use checks::{accepted, calling_off, refused, Desk, FIRST_TWENTY};
use reference::command::{Answer, Command};
use reference::{Closing, Flaw, House, Standing};

#[test]
fn each_check_of_calling_off_holds() {
    for (name, check) in calling_off::ALL {
        check(Flaw::None).unwrap_or_else(|found| panic!("{name}: {found}"));
    }
}

/// 4 comes before 26, and nothing else is checked: with no ticket, and with no ball. Only a
/// house that is made so can meet both.
#[test]
fn codes_4_and_26() {
    let mut house = House::fresh();
    refused(&mut house, &Command::CallOff, 4);
    accepted(&mut house, &Command::Open { day: 1 });
    assert_eq!(house.command(&Command::CallOff), Answer::accepted(1, 0));
    let mut closed = House::seasoned(0, House::LAST_GAME, 0);
    refused(&mut closed, &Command::CallOff, 4);
    accepted(&mut closed, &Command::Open { day: 1 });
    refused(&mut closed, &Command::CallOff, 26);
}

/// Game 9,999,999 can be called off. Then there is none to draw, to call off or to sell for,
/// and what is due is paid.
#[test]
fn the_last_game_is_called_off() {
    for balls_in in [0, 1, 19] {
        let mut house = House::seasoned(1, House::LAST_GAME - 1, 0);
        let sell = Command::sell(0, 1, 100, &[&[1]], 1);
        let ticket = accepted(&mut house, &sell).number;
        for number in &FIRST_TWENTY[..balls_in] {
            accepted(&mut house, &Command::Ball { number: *number });
        }
        let answer = house.command(&Command::CallOff);
        assert_eq!(answer, Answer::accepted(House::LAST_GAME, 100));
        assert_eq!((house.game(), house.is_drawing()), (House::LAST_GAME + 1, false));
        refused(&mut house, &Command::CallOff, 26);
        refused(&mut house, &Command::Ball { number: 1 }, 26);
        refused(&mut house, &Command::Ball { number: 81 }, 25);
        refused(&mut house, &sell, 17);
        accepted(&mut house, &Command::Open { day: 2 });
        assert_eq!(house.command(&Command::Claim { ticket }), Answer::accepted(ticket, 100));
    }
}

/// What becomes of each line of a ticket; of closed tickets nothing does.
#[test]
fn what_becomes_of_the_games() {
    let mut desk = Desk::new(Flaw::None);
    let cancelled = desk.straight(0, 1, 100, &[1]);
    desk.cancel(cancelled);
    let ticket = desk.straight(0, 3, 100, &[1]);
    let one_game = desk.straight(0, 1, 300, &[80]);
    desk.draw(&FIRST_TWENTY);
    desk.draw(&FIRST_TWENTY[..2]);
    assert_eq!(desk.call_off(), Answer::accepted(2, 100));
    let standings = |number: u32| -> Vec<Standing> {
        desk.house.tickets()[number as usize - 1].games.iter().map(|game| game.standing).collect()
    };
    assert_eq!(standings(cancelled), [Standing::TakenOff]);
    assert!(matches!(standings(one_game)[..], [Standing::Drawn(_)]));
    let [Standing::Drawn(won), called_off, left] = standings(ticket)[..] else { panic!("drawn") };
    assert_eq!((won.all(), called_off, left), (300, Standing::CalledOff(100), Standing::Waiting));
    let ticket = &desk.house.tickets()[ticket as usize - 1];
    assert_eq!((ticket.won(), ticket.given_back(), ticket.due()), (300, 100, 400));
    assert_eq!((ticket.finished_on, ticket.closing), (None, None));
    let lost = &desk.house.tickets()[one_game as usize - 1];
    assert_eq!(lost.closing, Some(Closing::NothingDue));
    desk.difference.expect("house and sheet agree");
}

/// No settlement takes place: what the house shows of the last one is that of the game
/// drawn before.
#[test]
fn a_game_called_off_is_not_settled() {
    let mut desk = Desk::new(Flaw::None);
    desk.straight(0, 2, 100, &[1]);
    desk.call_off();
    assert_eq!(desk.house.last_settlement(), None);
    desk.draw(&FIRST_TWENTY);
    let settled = desk.house.last_settlement().cloned();
    desk.straight(0, 1, 100, &[1]);
    desk.draw(&FIRST_TWENTY[..19]);
    desk.call_off();
    assert_eq!(desk.house.last_settlement(), settled.as_ref());
    desk.difference.expect("house and sheet agree");
}

/// 200 tickets run in it; half of them have no other game, and live until they are claimed.
#[test]
fn two_hundred_tickets_run_in_it() {
    let mut desk = Desk::new(Flaw::None);
    for number in 1..=200 {
        let games = if number % 2 == 0 { 1 } else { 2 };
        assert_eq!(desk.straight(0, games, 100, &[1]), number);
    }
    assert_eq!(desk.call_off(), Answer::accepted(1, 200 * 100));
    assert_eq!(desk.sell(0, 1, 100, &[&[1]], 1), Answer::refused(16));
    assert_eq!(desk.pays(200), 100);
    assert_eq!(desk.draw(&FIRST_TWENTY), Answer::accepted(20, 100 * 300));
    assert_eq!(desk.house.live_tickets().count(), 199);
    desk.difference.expect("house and sheet agree");
}
