//! Each scenario of collections leads where it says it does.

mod answers;

use answers::{count, run, run_on};
use reference::command::{CANCEL, COLLECT, LUCKY_LAST, SELL};
use reference::{Closing, Command, House};
use rolls::{collecting, far_tickets, Collections, Outcomes};

const SEED: u64 = 1998;

fn collected(rolls: &[Vec<u8>]) -> Outcomes {
    let mut collections = Collections::default();
    rolls.iter().for_each(|roll| collections.count_roll(roll));
    collections.outcomes
}

/// Of eight moments two come before anything is due and one when nothing is left.
#[test]
fn collections_come_at_every_moment() {
    let rolls = collecting::moments(SEED);
    for roll in &rolls {
        let (_, answers) = run(roll);
        for code in [0, 19, 33, 34] {
            assert!(count(&answers, COLLECT, code) >= 12, "code {code}");
        }
        for code in [0, 19, 20, 22] {
            assert!(count(&answers, CANCEL, code) >= 4, "code {code}");
        }
    }
    let collections = collected(&rolls);
    let elsewhere = [
        "with 200 live tickets",
        "with free and paid games left",
        "with only free games left",
        "then refused a cancel as a Keno To Go",
    ];
    assert_eq!(collections.missing(), elsewhere);
    for outcome in ["with one ball in", "with 19 balls in", "then expired", "then lost"] {
        assert!(collections.count(outcome) >= 8, "{outcome}: {collections:?}");
    }
}

/// The second try meets 19, and the new number has nothing due.
#[test]
fn a_collection_is_tried_twice_and_on_the_new_number() {
    for roll in collecting::moments(SEED) {
        let (_, answers) = run(&roll);
        let mut seen = 0;
        for tries in answers.windows(4) {
            let [(Command::Collect { ticket: first }, answer), (_, again), (_, claim), (last, new)] =
                tries
            else {
                continue;
            };
            if answer.code == 0 && *last == (Command::Collect { ticket: answer.number }) {
                assert_eq!((again.code, claim.code, new.code), (19, 19, 34), "{first}");
                seen += 1;
            }
        }
        assert!(seen >= 40, "{seen}");
    }
}

#[test]
fn rows_of_collections_reach_the_free_games() {
    for (roll, games) in collecting::in_a_row(SEED).iter().zip([5, 49, 50, 51, 99, 100]) {
        let (house, answers) = run(roll);
        assert!(house.live_tickets().next().is_none(), "{games} games are over");
        // A ticket that was sold and collected several times over.
        let links = |number: u32| {
            let before = |number: &u32| house.tickets()[*number as usize - 1].reissue_of;
            std::iter::successors(Some(number), before).count()
        };
        let longest = (1..=house.issued()).map(links).max();
        assert!(longest >= Some(4), "{games} games: {longest:?}");
        assert_eq!(count(&answers, CANCEL, 21) > 0, games >= 50, "{games} games");
    }
    let collections = collected(&collecting::in_a_row(SEED));
    for outcome in ["with free and paid games left", "with only free games left"] {
        assert!(collections.count(outcome) >= 8, "{outcome}: {collections:?}");
    }
}

#[test]
fn two_hundred_live_tickets_collect() {
    let roll = &collecting::two_hundred(SEED)[0];
    let (house, answers) = run(roll);
    assert_eq!((count(&answers, COLLECT, 0), count(&answers, SELL, 16)), (198, 3));
    assert!(count(&answers, COLLECT, 33) >= 2 && count(&answers, COLLECT, 19) >= 2);
    assert_eq!(house.issued(), 200 + 198 + 1);
    assert_eq!(collected(&collecting::two_hundred(SEED)).count("with 200 live tickets"), 198);
}

/// Odd cents go to another ticket than the one that had them before it collected.
#[test]
fn jackpots_are_shared_again_by_the_new_numbers() {
    let rolls = collecting::jackpots(SEED);
    for roll in &rolls {
        let (house, answers) = run(roll);
        assert!(count(&answers, COLLECT, 0) >= 4);
        let shares =
            house.tickets().iter().filter(|ticket| !ticket.is_sold() && ticket.shares() > 0);
        assert!(shares.count() >= 3);
    }
    assert!(collected(&rolls).count("of a jackpot share") >= 40);
}

/// Both of the last two numbers are issued by collections; then 35, after all else.
#[test]
fn the_last_numbers_are_collected() {
    let house = House::seasoned(1, 0, far_tickets::CANCELLED);
    let (house, answers) = run_on(house, &far_tickets::last_collections());
    let accepted =
        answers.iter().filter(|(command, answer)| command.byte() == COLLECT && answer.code == 0);
    let numbers: Vec<u32> = accepted.map(|(_, answer)| answer.number).collect();
    assert_eq!(numbers, [House::LAST_TICKET - 1, House::LAST_TICKET]);
    for code in [18, 19, 33, 34, 35] {
        assert!(count(&answers, COLLECT, code) >= 2, "code {code}");
    }
    assert_eq!((count(&answers, COLLECT, 35), count(&answers, SELL, 17)), (5, 2));
    assert_eq!(count(&answers, LUCKY_LAST, 17), 2);
    let paid = house.tickets().iter().filter(|ticket| ticket.closing == Some(Closing::Claimed));
    assert!(paid.count() >= 196);
}
