//! "Lucky Last": the last ball and the one before it, free games, prizes beside a
//! cut and above the cap, and the feature stake in charge and refund.

use super::*;
use reference::Sale;

pub const ALL: &[NamedCheck] = &[
    ("one number and the last ball", one_number_and_the_last_ball),
    ("the same ball as the nineteenth", the_same_ball_as_the_nineteenth),
    ("every count of numbers", every_count_of_numbers),
    ("several groups in one way", several_groups_in_one_way),
    ("charges with a feature", charges_with_a_feature),
    ("free games play for the feature", free_games_play_for_the_feature),
    ("a feature prize is not capped", a_feature_prize_is_not_capped),
    ("a feature prize is no major prize", a_feature_prize_is_no_major_prize),
    ("a feature prize is not cut", a_feature_prize_is_not_cut),
    ("a cancel refunds the feature stake", a_cancel_refunds_the_feature_stake),
    ("a cancel while drawing keeps one game's", a_cancel_while_drawing_keeps_one_games),
    ("a feature prize expires", a_feature_prize_expires),
];

/// Balls 1 to 20, of which 20 comes before 19.
const TWENTY_BEFORE_NINETEEN: [u8; 20] =
    [1, 2, 3, 4, 5, 6, 7, 8, 9, 10, 11, 12, 13, 14, 15, 16, 17, 18, 20, 19];

/// Balls 1 to 20 and 20 the last: $3 for 1 of 1, and $60 beside it.
pub fn one_number_and_the_last_ball(flaw: Flaw) -> Check {
    let mut desk = Desk::new(flaw);
    let ticket = desk.lucky_last(1, 100, 100, &[20]);
    expect("held", desk.house.till()[5], 200)?;
    expect("twentieth ball", desk.draw(&FIRST_TWENTY), Answer::accepted(20, 6_300))?;
    let till = [200, 1_350_000, 0, 0, 6_300, 0, 0, 1_350_000, 200 - 6_300];
    expect("till", desk.house.till(), till)?;
    expect("claim", desk.pays(ticket), 6_300)?;
    desk.difference
}

/// The same twenty balls, and $3 is all.
pub fn the_same_ball_as_the_nineteenth(flaw: Flaw) -> Check {
    let mut desk = Desk::new(flaw);
    let ticket = desk.lucky_last(1, 100, 100, &[20]);
    expect("twentieth ball", desk.draw(&TWENTY_BEFORE_NINETEEN), Answer::accepted(20, 300))?;
    expect("claim", desk.pays(ticket), 300)?;
    desk.difference
}

/// 1 to 15 numbers, one of them a ball, at $1 and at $3. A ticket without the
/// feature beside each tells what the schedule pays.
pub fn every_count_of_numbers(flaw: Flaw) -> Check {
    let cents =
        [6_000, 3_000, 2_000, 1_500, 1_200, 1_000, 850, 750, 650, 600, 550, 500, 450, 400, 400];
    for (balls, times) in [(FIRST_TWENTY, 1), (TWENTY_BEFORE_NINETEEN, 0)] {
        let mut desk = Desk::new(flaw);
        for size in 0..cents.len() {
            let numbers = [&[20], &LAST_TWENTY[..size]].concat();
            desk.straight(0, 1, 100, &numbers);
            desk.lucky_last(1, 100, 100, &numbers);
            desk.lucky_last(1, 100, 300, &numbers);
        }
        desk.draw(&balls);
        for (cents, tickets) in cents.iter().zip(desk.house.tickets().chunks(3)) {
            let beside = |ticket: usize| tickets[ticket].won() - tickets[0].won();
            expect("feature prizes", [beside(1), beside(2)], [times * cents, 3 * times * cents])?;
        }
        desk.difference?;
    }
    Ok(())
}

/// Three groups with five numbers together: the last ball may be in any of them.
pub fn several_groups_in_one_way(flaw: Flaw) -> Check {
    let groups: Groups = &[&[1], &[61, 62], &[63, 20]];
    let mut backwards = FIRST_TWENTY;
    backwards.reverse();
    for (balls, prize) in [(FIRST_TWENTY, 3_600), (backwards, 3_600), (TWENTY_BEFORE_NINETEEN, 0)] {
        let mut desk = Desk::new(flaw);
        let sale = Sale::new(0, 1, 100, groups, 0b100).with_feature(300);
        expect("sale", desk.give(&Command::Sell(sale)), Answer::accepted(1, 400))?;
        // 2 of 5 pays nothing.
        expect("twentieth ball", desk.draw(&balls), Answer::accepted(20, prize))?;
        desk.difference?;
    }
    Ok(())
}

/// The feature stake is paid for in the same games as the stake.
pub fn charges_with_a_feature(flaw: Flaw) -> Check {
    let rows = [
        (1, 100, 999_800, 999_900),
        (5, 200, 300, 2_500),
        (49, 100, 200, 14_700),
        (50, 100, 200, 14_700),
        (99, 100, 200, 29_400),
        (100, 100, 200, 29_400),
    ];
    let mut desk = Desk::new(flaw);
    for (games, stake, feature_stake, charge) in rows {
        let answer = desk.give(&Command::lucky_last(games, stake, feature_stake, &[1, 2, 3]));
        expect(&format!("charge of {games} games"), (answer.code, answer.cents), (0, charge))?;
    }
    desk.difference
}

/// The fiftieth of 50 games, and the last two of 100.
pub fn free_games_play_for_the_feature(flaw: Flaw) -> Check {
    let mut desk = Desk::new(flaw);
    let fifty = desk.lucky_last(50, 100, 200, &[20]);
    let hundred = desk.lucky_last(100, 100, 100, &[20]);
    for game in 1..=98 {
        desk.draw(if game == 50 { &FIRST_TWENTY } else { &LAST_TWENTY });
    }
    expect("held", desk.house.till()[5], 0)?;
    expect("fiftieth game", desk.pays(fifty), 300 + 12_000)?;
    expect("free game", desk.draw(&FIRST_TWENTY), Answer::accepted(20, 300 + 6_000))?;
    expect("last free game", desk.draw(&FIRST_TWENTY), Answer::accepted(20, 300 + 6_000))?;
    expect("claim", desk.pays(hundred), 3 * (300 + 6_000))?;
    desk.difference
}

/// Sixty times $9,998.
pub fn a_feature_prize_is_not_capped(flaw: Flaw) -> Check {
    let mut desk = Desk::new(flaw);
    let ticket = desk.lucky_last(1, 100, 999_800, &[20]);
    expect("twentieth ball", desk.draw(&FIRST_TWENTY).cents, 59_988_300)?;
    expect("claim", desk.pays(ticket), 59_988_300)?;
    desk.difference
}

/// Beside majors of exactly 5,000,000 together: they stay uncut.
pub fn a_feature_prize_is_no_major_prize(flaw: Flaw) -> Check {
    let mut desk = Desk::new(flaw);
    let tickets = [
        desk.straight(0, 1, 100, &[1, 2, 3, 4, 5, 6, 7, 8, 80]),
        desk.straight(0, 1, 100, &[1, 2, 3, 4, 5, 6, 7, 8, 9, 10, 11, 12, 80]),
        desk.straight(0, 1, 1_800, &[1, 2, 3, 4, 5, 6, 7, 8, 9, 79, 80]),
        desk.lucky_last(1, 100, 1_000, &[20]),
    ];
    expect("twentieth ball", desk.draw(&FIRST_TWENTY).cents, 5_060_300)?;
    for (ticket, paid) in tickets.into_iter().zip([300_000, 2_000_000, 2_700_000, 60_300]) {
        expect("claim", desk.pays(ticket), paid)?;
    }
    desk.difference
}

/// Majors 5,000,000, 5,000,000, 30,000, of which the first two have features: what
/// these win is paid whole, be it 40,000 or 400.
pub fn a_feature_prize_is_not_cut(flaw: Flaw) -> Check {
    let fifteen = &FIRST_TWENTY[5..];
    let mut desk = Desk::new(flaw);
    let large = desk.lucky_last(1, 100, 10_000, fifteen);
    let small = desk.lucky_last(1, 100, 100, fifteen);
    let floored = desk.straight(0, 1, 600, &[1, 2, 3, 4, 5, 80]);
    expect("twentieth ball", desk.draw(&FIRST_TWENTY).cents, 5_040_400)?;
    expect("large feature", desk.pays(large), 2_490_000 + 40_000)?;
    expect("small feature", desk.pays(small), 2_490_000 + 400)?;
    expect("floored", desk.pays(floored), 20_000)?;
    desk.difference
}

/// Before the first ball, of 5 games and of 50.
pub fn a_cancel_refunds_the_feature_stake(flaw: Flaw) -> Check {
    let mut desk = Desk::new(flaw);
    let few = desk.lucky_last(5, 200, 300, &[20]);
    let to_go = desk.lucky_last(50, 200, 300, &[20]);
    expect("refund", desk.cancel(few), Answer::accepted(few, 2_500))?;
    expect("refund of 50 games", desk.cancel(to_go), Answer::accepted(to_go, 24_500))?;
    let till = [27_000, 1_350_000, 0, 27_000, 0, 0, 0, 1_350_000, 0];
    expect("till", desk.house.till(), till)?;
    expect("twentieth ball", desk.draw(&FIRST_TWENTY).cents, 0)?;
    desk.difference
}

/// Four games of five are refunded; the one being drawn is played for its feature.
pub fn a_cancel_while_drawing_keeps_one_games(flaw: Flaw) -> Check {
    let mut desk = Desk::new(flaw);
    let ticket = desk.lucky_last(5, 200, 300, &[20]);
    desk.ball(1);
    expect("refund", desk.cancel(ticket), Answer::accepted(ticket, 2_000))?;
    expect("held", desk.house.till()[5], 500)?;
    expect("twentieth ball", desk.draw(&FIRST_TWENTY[1..]).cents, 600 + 18_000)?;
    let till = [2_500, 1_350_000, 0, 2_000, 18_600, 0, 0, 1_350_000, 500 - 18_600];
    expect("till", desk.house.till(), till)?;
    expect("claim", desk.pays(ticket), 18_600)?;
    desk.difference
}

/// Day 1 is 1 January 1998, and day 367 the 2nd a year on.
pub fn a_feature_prize_expires(flaw: Flaw) -> Check {
    let mut desk = Desk::new(flaw);
    let ticket = desk.lucky_last(1, 100, 100, &[20]);
    desk.draw(&FIRST_TWENTY);
    desk.open(367);
    expect("expire", desk.expire(), Answer::accepted(1, 6_300))?;
    expect("claim", desk.claim(ticket), Answer::refused(19))?;
    expect("transfer", desk.transfer(6, 6_300), Answer::accepted(6, 106_300))?;
    desk.difference
}
