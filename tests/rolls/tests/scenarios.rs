//! Each scenario leads where it says it does.

use reference::command::{BALL, CANCEL, CLAIM, EXPIRE, LUCKY_LAST, SELL, TRANSFER};
use reference::roll::{read_answer, ANSWER_BYTES};
use reference::settlement::Settlement;
use reference::{run_roll, Answer, Closing, Command, House, Kind, Standing};
use rolls::{lucky_last, scenarios, sweeps, Features};
use std::collections::BTreeMap;

const SEED: u64 = 1998;

/// The answers to a roll, and the house after it.
fn run(roll: &[u8]) -> (House, Vec<(u8, Answer)>) {
    let mut house = House::fresh();
    let mut book = vec![0; roll.len() * ANSWER_BYTES];
    let report = run_roll(&mut house, roll, &mut book);
    assert_eq!(report.stop, 0);
    let records = book[..report.answers * ANSWER_BYTES].chunks_exact(ANSWER_BYTES);
    (house, records.map(read_answer).collect())
}

/// How every game of a roll was settled.
fn settlements(roll: &[u8]) -> Vec<Settlement> {
    let mut house = House::fresh();
    let mut settlements = Vec::new();
    let mut unread = roll;
    while !unread.is_empty() {
        let length = reference::command::length(unread[0]).expect("a known command");
        let answer = house.command(&Command::decode(&unread[..length]));
        if unread[0] == BALL && answer.code == 0 && answer.number == 20 {
            settlements.push(house.last_settlement().expect("a game was drawn").clone());
        }
        unread = &unread[length..];
    }
    settlements
}

fn count(answers: &[(u8, Answer)], command: u8, code: u8) -> usize {
    answers.iter().filter(|(byte, answer)| (*byte, answer.code) == (command, code)).count()
}

#[test]
fn rolls_fit_the_program() {
    for roll in rolls::everything(SEED) {
        if !roll.name.starts_with("overlong") {
            assert!(roll.bytes.len() <= 65_536, "{}: {}", roll.name, roll.bytes.len());
        } else {
            assert!(roll.bytes.len() > 65_536);
        }
    }
}

#[test]
fn crowded_cuts_take_rounds() {
    let rolls = scenarios::crowded_cuts(SEED);
    let all_floored = &settlements(&rolls[0])[0];
    assert!(all_floored.majors > 10_000);
    assert_eq!(all_floored.majors, all_floored.floored);
    for (roll, crowd) in rolls[1..].iter().zip(&scenarios::CROWDS) {
        let game = &settlements(roll)[0];
        assert_eq!(game.cut_rounds, crowd.rounds);
        assert!(0 < game.floored && game.floored < game.majors);
        let (house, _) = run(roll);
        assert_eq!(house.tickets().len(), 200);
        assert!(house.tickets().iter().all(|ticket| ticket.terms.ways.len() == 255));
    }
}

#[test]
fn shared_jackpots_are_shared_with_odd_cents() {
    let mut shared = 0;
    for roll in scenarios::shared_jackpots(SEED) {
        let (house, answers) = run(&roll);
        assert!(count(&answers, SELL, 0) > 20);
        let tickets = house.tickets();
        for game in 1..house.game() {
            let won =
                |ticket: &&reference::Ticket| ticket.first_game() == game && ticket.shares() > 0;
            shared += usize::from(tickets.iter().filter(won).count() > 1);
        }
    }
    assert!(shared > 40, "{shared} games with more than one winning ticket");
}

#[test]
fn grown_jackpots_pass_the_cap_and_pay_off_their_debts() {
    for roll in scenarios::grown_jackpots(SEED) {
        let (house, _) = run(&roll);
        let largest = house.tickets().iter().map(|ticket| ticket.shares()).max();
        assert!(largest > Some(5_000_000), "{largest:?}");
        assert_eq!(house.pools().six.debt, 0);
        assert!(house.pools().six.reimbursement > 0);
        let seeded: i128 = settlements(&roll).iter().map(|game| game.seeded).sum();
        assert_eq!(seeded, 0, "the secondary stood in for every seed");
    }
}

#[test]
fn keno_to_go_is_played_to_the_end() {
    for roll in scenarios::keno_to_go(SEED) {
        let (house, answers) = run(&roll);
        assert!(count(&answers, CANCEL, 21) > 0);
        for games in [49, 50, 99, 100] {
            let played = house.tickets().iter().filter(|ticket| {
                ticket.terms.games == games && ticket.closing == Some(Closing::Claimed)
            });
            assert!(played.count() > 0, "{games} games");
        }
        let free_hits = house.tickets().iter().flat_map(|ticket| {
            let jackpot = ticket.terms.kind == Kind::Jackpot;
            ticket.games.iter().filter(move |game| jackpot && !game.paid)
        });
        let hit = |standing| matches!(standing, Standing::Drawn(won) if won.shares > 0);
        assert!(free_hits.filter(|game| hit(game.standing)).count() > 0);
        let mut features = Features::default();
        features.count_roll(&roll);
        for paid in [true, false] {
            assert!(
                features.games(true, paid, false) > 0 && features.games(false, paid, false) > 0
            );
        }
    }
}

#[test]
fn cancels_come_at_every_moment() {
    for roll in scenarios::cancels(SEED) {
        let (_, answers) = run(&roll);
        for code in [0, 19, 20, 21, 22] {
            assert!(count(&answers, CANCEL, code) >= 8, "code {code}");
        }
        assert!(count(&answers, CLAIM, 0) > 0 && count(&answers, CLAIM, 23) > 0);
    }
}

/// The last of the three rolls: before, while and after drawing, with what was won
/// and what is refunded told for each ticket.
#[test]
fn features_are_cancelled_at_every_moment() {
    let (house, answers) = run(&scenarios::cancels(SEED)[2]);
    assert_eq!((count(&answers, SELL, 0), count(&answers, LUCKY_LAST, 0)), (0, 64));
    let refunds = answers.iter().filter(|(byte, answer)| *byte == CANCEL && answer.cents > 0);
    for (_, answer) in refunds.clone() {
        // 100 and the feature's 300, for one to five games or 49.
        assert!((1..=5).chain([49]).any(|games| answer.cents == 400 * games), "{answer:?}");
    }
    assert!(refunds.count() >= 20);
    // Those of 50 games that stand win in games made for others too.
    let few_games = house.tickets().iter().filter(|ticket| ticket.terms.games < 50);
    let won: Vec<i128> = few_games.map(|ticket| ticket.won()).filter(|&won| won > 0).collect();
    assert!(won.len() >= 15 && won.iter().all(|won| won % (300 + 18_000) == 0), "{won:?}");
}

#[test]
fn expiries_take_some_and_leave_some() {
    for (set, roll) in scenarios::expiries(SEED).iter().enumerate() {
        let (house, answers) = run(roll);
        let expiries: Vec<u32> = answers
            .iter()
            .filter(|(byte, _)| *byte == EXPIRE)
            .map(|(_, answer)| answer.number)
            .collect();
        assert_eq!(expiries[..6], [0; 6], "up to a year on from the first finishing day");
        assert!(expiries.iter().filter(|&&number| number > 0).count() >= 4, "{expiries:?}");
        assert!(count(&answers, TRANSFER, 0) > 0);
        assert!(house.tickets().iter().any(|t| t.closing == Some(Closing::Claimed)), "{set}");
        assert!(house.live_tickets().count() >= 4, "100 games are not finished");
        let expired = house.tickets().iter().filter(|t| t.closing == Some(Closing::Expired));
        let features: Vec<i128> =
            expired.filter(|t| t.terms.feature_stake > 0).map(|t| t.won()).collect();
        assert!(features.len() >= 2 && features.iter().all(|&won| won == 4_000), "{features:?}");
    }
}

/// Finishing days from 27 February to 2 March and the last day of each, by the
/// dates: the same one of the next year, and for a 29 February that of the 28th.
fn ends_of_february() -> Vec<(u16, u16)> {
    let has_29_days = |year: u32| year.is_multiple_of(4) && year != 2100;
    let mut days = Vec::new();
    // 1 March 1998.
    let mut march = 60;
    for year in 1998..2177 {
        let next_march = march + if has_29_days(year + 1) { 366 } else { 365 };
        let february_28 = march - if has_29_days(year) { 2 } else { 1 };
        let next_february_28 = next_march - if has_29_days(year + 1) { 2 } else { 1 };
        days.push((february_28 - 1, next_february_28 - 1));
        days.push((february_28, next_february_28));
        if has_29_days(year) {
            days.push((march - 1, next_february_28));
        }
        days.push((march, next_march));
        days.push((march + 1, next_march + 1));
        march = next_march;
    }
    // 2 March 2176 and 2177.
    assert_eq!(days.last(), Some(&(65_075, 65_440)));
    days
}

/// The day that closed a ticket in this way, by its finishing day.
fn days_closed(roll: &[u8], closing: Closing) -> BTreeMap<u16, u16> {
    let mut house = House::fresh();
    let mut days = BTreeMap::new();
    let mut unread = roll;
    while !unread.is_empty() {
        let length = reference::command::length(unread[0]).expect("a known command");
        house.command(&Command::decode(&unread[..length]));
        for ticket in house.tickets().iter().filter(|ticket| ticket.closing == Some(closing)) {
            let finished_on = ticket.finished_on.expect("a closed ticket is finished");
            days.entry(finished_on).or_insert(house.today());
        }
        unread = &unread[length..];
    }
    days
}

/// On its last day a ticket is paid; the day after, an Expire takes the other one.
#[test]
fn februaries_are_closed_by_the_date() {
    let rolls = scenarios::februaries(SEED);
    let closed = |closing| -> Vec<(u16, u16)> {
        rolls.iter().flat_map(|roll| days_closed(roll, closing)).collect()
    };
    let days = ends_of_february();
    for known in [(425, 791), (789, 1_155), (790, 1_155), (791, 1_156), (36_950, 37_315)] {
        assert!(days.contains(&known), "{known:?}");
    }
    assert_eq!(closed(Closing::Claimed), days);
    let day_after = |&(finished_on, last): &(u16, u16)| (finished_on, last + 1);
    assert_eq!(closed(Closing::Expired), days.iter().map(day_after).collect::<Vec<_>>());
}

#[test]
fn the_lounge_is_crowded() {
    let (_, answers) = run(&scenarios::crowded_lounge(SEED)[0]);
    assert!(count(&answers, SELL, 16) >= 4);
    assert!(count(&answers, SELL, 0) >= 203);
    assert_eq!((count(&answers, LUCKY_LAST, 16), count(&answers, LUCKY_LAST, 0)), (2, 1));
}

#[test]
fn transfers_reach_both_primaries() {
    let (_, answers) = run(&scenarios::transfers(SEED)[0]);
    let to = |jackpot| {
        answers
            .iter()
            .filter(|(byte, a)| *byte == TRANSFER && a.code == 0 && a.number == jackpot)
            .count()
    };
    assert!(to(6) >= 8 && to(8) >= 8);
    for code in [6, 28, 29] {
        assert!(count(&answers, TRANSFER, code) >= 8);
    }
}

/// 135 cells of rule 18.1, 16 of jackpots, 135 and 22 of the specials.
#[test]
fn every_cell_is_sold_and_drawn() {
    for roll in sweeps::schedule_cells(SEED) {
        let (house, answers) = run(&roll);
        assert_eq!(count(&answers, SELL, 0), 135 + 16 + 135 + 22);
        assert_eq!(house.game(), 1 + 135 + 16 + 135 + 22);
    }
}

/// 1 to 15 numbers, three games each: the feature is won in the first alone, and
/// pays by rule 21.1.
#[test]
fn every_count_of_numbers_has_its_feature_won_and_missed() {
    for (place, roll) in lucky_last::numbers(SEED).iter().enumerate() {
        let (house, answers) = run(roll);
        assert_eq!(count(&answers, LUCKY_LAST, 0), 45);
        for (index, tickets) in house.tickets().chunks(3).enumerate() {
            let features = tickets.iter().map(|ticket| match ticket.games[0].standing {
                Standing::Drawn(winnings) => winnings.feature,
                standing => panic!("{standing:?}"),
            });
            let terms = &tickets[0].terms;
            assert_eq!(terms.ways[0].len(), index + 1);
            let prize = reference::prizes::feature_prize(index + 1, terms.feature_stake);
            assert!(prize > 0 && features.eq([prize, 0, 0]), "roll {place}, {terms:?}");
        }
    }
}

#[test]
fn features_stand_beside_cuts() {
    let rolls = lucky_last::beside_cuts(SEED);
    let mut all = Features::default();
    for (roll, games) in rolls.iter().zip([49, 50, 99, 100]) {
        let (house, _) = run(roll);
        assert_eq!(house.game(), games + 1);
        assert!(settlements(roll).iter().filter(|game| game.cut).count() >= 4);
        all.count_roll(roll);
    }
    assert_eq!(all.missing(), [""; 0]);
}

#[test]
fn feature_sweeps_meet_both_sides_of_each_limit() {
    let of = |rolls: Vec<Vec<u8>>, code: u8| -> usize {
        rolls.iter().map(|roll| count(&run(roll).1, LUCKY_LAST, code)).sum()
    };
    let operands = |code| of(lucky_last::operands(), code);
    // Twelve feature stakes at each of three stakes, on 15 shapes: four that may have
    // the feature, one with too many numbers, two Special Ones of one way.
    assert_eq!((operands(12), operands(13), operands(31)), (36, 2 * 36, 8 * 36));
    assert_eq!((operands(14), operands(32)), (4 * 12, 4 * 2 * 7));
    // 100, 200 and 999,800 go with a stake of 100.
    assert_eq!((operands(0), operands(15)), (4 * 3, 4 * (2 + 5)));
    // Three of nine are in order, for nine counts of games.
    assert_eq!((of(lucky_last::charges(), 0), of(lucky_last::charges(), 15)), (27, 54));
    assert_eq!(of(lucky_last::charges(), 8), 18);
}

#[test]
fn sweeps_meet_both_sides_of_each_limit() {
    let of = |rolls: Vec<Vec<u8>>, code: u8| -> usize {
        rolls.iter().map(|roll| count(&run(roll).1, SELL, code)).sum()
    };
    assert!(of(sweeps::groups_and_types(), 0) > 200);
    assert!(of(sweeps::groups_and_types(), 9) == 512);
    assert!(of(sweeps::stakes(), 0) > 50 && of(sweeps::stakes(), 14) > 200);
    assert_eq!(of(sweeps::charges(), 15), 100);
    assert_eq!(of(sweeps::charges(), 0), 200);
    assert!(of(sweeps::way_sizes(), 12) > 100 && of(sweeps::way_sizes(), 13) > 10);
}
