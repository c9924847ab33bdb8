//! Each scenario of games called off leads where it says it does.

mod answers;

use answers::{count, run, run_on};
use reference::command::{BALL, CALL_OFF, CANCEL, CLAIM, COLLECT, OPEN, SELL, TRANSFER};
use reference::{Closing, Command, House};
use rolls::{calling_off, CallsOff, FarGames, Outcomes};

const SEED: u64 = 1998;

fn called_off(rolls: &[Vec<u8>]) -> Outcomes {
    let mut calls_off = CallsOff::default();
    rolls.iter().for_each(|roll| calls_off.count_roll(roll));
    calls_off.outcomes
}

#[test]
fn games_are_called_off_at_every_moment() {
    let rolls = calling_off::moments(SEED);
    for roll in &rolls {
        let (_, answers) = run(roll);
        assert!(count(&answers, CALL_OFF, 0) >= 96);
        for code in [0, 19, 20, 22] {
            assert!(count(&answers, CANCEL, code) >= 4, "code {code}");
        }
        for code in [0, 19, 33, 34] {
            assert!(count(&answers, COLLECT, code) >= 4, "code {code}");
        }
        // What may not be while drawing is tried then, and again after it.
        for byte in [OPEN, TRANSFER] {
            let counts = (count(&answers, byte, 6), count(&answers, byte, 0));
            assert!(counts.0 >= 24 && counts.1 >= 8, "command {byte}: {counts:?}");
        }
    }
    let calls_off = called_off(&rolls);
    let elsewhere = [
        "with 200 live tickets",
        "of a Keno To Go in its first game",
        "of a free game that is not the last",
        "of a last game that is free, with a due before",
        "of a last game that is free, with nothing due",
        "then refused a cancel as a Keno To Go",
        "then cancelled, a Keno To Go sold while drawing",
        "then closed with nothing due",
    ];
    assert_eq!(calls_off.missing(), elsewhere);
    for outcome in ["with one ball in", "with 19 balls in", "then expired", "then cancelled"] {
        assert!(calls_off.count(outcome) >= 8, "{outcome}: {calls_off:?}");
    }
}

/// On the last day of its year a ticket stands, and the day after it goes.
#[test]
fn what_is_due_expires_on_its_day() {
    for roll in calling_off::moments(SEED) {
        let (_, answers) = run(&roll);
        let pairs = answers.windows(3).filter_map(|commands| match commands {
            [(Command::Expire, first), _, (Command::Expire, second)] => {
                Some((first.number, second.number))
            }
            _ => None,
        });
        let pairs: Vec<(u32, u32)> = pairs.collect();
        assert_eq!(pairs.len(), 16);
        assert!(pairs.iter().filter(|(_, second)| *second > 0).count() >= 10, "{pairs:?}");
    }
}

/// Of the last free game nothing is due, so that tickets close by it that never won; and where
/// games before it were called off too, they wait for their claim.
#[test]
fn free_games_are_called_off() {
    let rolls = calling_off::free_games(SEED);
    for (place, roll) in rolls.iter().enumerate() {
        let games = [49, 50, 51, 99, 100][place / 2];
        let (house, answers) = run(roll);
        assert!(house.live_tickets().next().is_none(), "{games} games are over");
        assert!(house.game() >= games + 2);
        let begun = [21, 0].map(|code| count(&answers[..80], CANCEL, code));
        let expected = if games >= 50 { [2, 2] } else { [0, 4] };
        assert_eq!(begun, expected, "{games} games");
    }
    let often: Vec<Vec<u8>> = rolls.iter().skip(1).step_by(2).cloned().collect();
    let seldom: Vec<Vec<u8>> = rolls.into_iter().step_by(2).collect();
    let (often, seldom) = (called_off(&often), called_off(&seldom));
    let nothing_due = "of a last game that is free, with nothing due";
    assert!(seldom.count(nothing_due) >= 12, "{seldom:?}");
    assert!(seldom.count("then closed with nothing due") >= 12, "{seldom:?}");
    assert!(often.count("of a last game that is free, with a due before") >= 12, "{often:?}");
    assert!(often.count("of a free game that is not the last") >= 4, "{often:?}");
    assert!(often.count("of a Keno To Go in its first game") >= 8, "{often:?}");
    assert!(often.count("then refused a cancel as a Keno To Go") >= 8, "{often:?}");
    assert!(often.count("then cancelled, a Keno To Go sold while drawing") >= 8, "{often:?}");
}

/// Up to six of them, each with a number of its own.
#[test]
fn games_are_called_off_in_a_row() {
    for roll in calling_off::in_a_row(SEED) {
        let (_, answers) = run(&roll);
        let off = answers.iter().filter(|(command, _)| *command == Command::CallOff);
        let numbers: Vec<u32> = off.map(|(_, answer)| answer.number).collect();
        assert_eq!(numbers.len(), 6 * 7 / 2 + 3 + 2 + 1);
        assert!(numbers.windows(2).all(|pair| pair[0] < pair[1]), "{numbers:?}");
        assert!(numbers.windows(6).any(|six| six[5] == six[0] + 5), "{numbers:?}");
    }
    assert!(called_off(&calling_off::in_a_row(SEED)).count("then claimed, of several games") >= 8);
}

#[test]
fn two_hundred_tickets_run_in_it() {
    let rolls = calling_off::two_hundred(SEED);
    let (house, answers) = run(&rolls[0]);
    assert_eq!((count(&answers, CALL_OFF, 0), count(&answers, SELL, 16)), (3, 3));
    assert_eq!((count(&answers, BALL, 0), house.game()), (19 + 7, 4));
    // Nobody wins: what is paid was paid for the three games.
    assert!(house.tickets().iter().all(|ticket| ticket.won() == 0));
    let closed = |closing| {
        let tickets = house.tickets().iter();
        tickets.filter(|ticket| ticket.closing == Some(closing)).count()
    };
    assert_eq!(closed(Closing::Claimed) + closed(Closing::Collected), 200 + 40);
    assert_eq!(called_off(&rolls).count("with 200 live tickets"), 3);
}

/// They win in games before and after one that is called off, in which they would have won.
#[test]
fn jackpots_are_shared_between() {
    for roll in calling_off::jackpots(SEED) {
        let (house, answers) = run(&roll);
        let off = count(&answers, CALL_OFF, 0);
        assert!((1..8).contains(&off), "{off}");
        let both =
            house.tickets().iter().filter(|ticket| ticket.shares() > 0 && ticket.given_back() > 0);
        assert!(both.count() >= 1);
    }
}

/// Game 9,999,999 is drawn or called off; then there is none to draw or to call off.
#[test]
fn the_last_game_is_called_off() {
    let far = FarGames::new();
    let last_game = |roll: &[u8], called_off: usize| {
        let house = House::seasoned(1, far.games_before_the_last_roll(), 0);
        let (house, answers) = run_on(house, roll);
        assert_eq!(house.game(), House::LAST_GAME + 1);
        assert_eq!((count(&answers, CALL_OFF, 0), count(&answers, CALL_OFF, 26)), (called_off, 2));
        assert_eq!((count(&answers, BALL, 26), count(&answers, SELL, 17) >= 5), (2, true));
        assert!(count(&answers, CLAIM, 0) >= 4);
        let off = answers.iter().filter(|(command, _)| *command == Command::CallOff);
        off.map(|(_, answer)| answer.number).max()
    };
    assert_eq!(last_game(far.last_roll(), 1), Some(House::LAST_GAME - 98));
    assert_eq!(last_game(far.last_roll_called_off(), 2), Some(House::LAST_GAME));
}
