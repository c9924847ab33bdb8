//! The row of a sale with a feature: 4, 7 to 13, 31, 14, 32, 15, 16, 17. Each code
//! before everything that stands after it, and the house left as it was.

mod checks;

use checks::{accepted, refused, Desk, Groups, STRAIGHT};
use reference::command::Command;
use reference::ways::marks_of;
use reference::{Flaw, House, Sale};

/// The largest whole dollars that four bytes hold.
const MOST_STAKE: u32 = 4_294_967_200;

/// Feature stakes that are 0 or no multiple of 100.
const BAD_FEATURE_STAKES: [u32; 8] = [0, 1, 50, 99, 101, 150, 999_950, u32::MAX];

fn house() -> House {
    Desk::new(Flaw::None).house
}

fn straight(games: u8, stake: u32, feature_stake: u32) -> Command {
    Command::lucky_last(games, stake, feature_stake, &[1, 2, 3])
}

/// A sale that is refused with the code, first as it is and then with a feature
/// stake of 0, which is refused too.
fn refused_as_sell(house: &mut House, sale: Sale, code: u8) {
    refused(house, &Command::Sell(sale.clone()), code);
    refused(house, &Command::Sell(sale.with_feature(0)), code);
}

#[test]
fn code_4_on_day_0() {
    let mut house = House::fresh();
    refused_as_sell(&mut house, Sale::new(9, 0, 0, &[], 0), 4);
    refused(&mut house, &straight(1, 100, 100), 4);
}

/// Each sale also breaks what is checked later.
#[test]
fn codes_7_to_13_as_for_a_sell() {
    let house = &mut house();
    let numbers: Vec<u8> = (1..=16).collect();
    let halves: Groups = &[&numbers[..2], &numbers[2..4]];
    let unmarked = Sale { groups: 1, marks: vec![0; 80], ..Sale::new(1, 1, 0, &[], 0) };
    let rows = [
        (7, Sale::new(4, 0, 0, &[], 0)),
        (7, Sale::new(255, 0, 0, &[], 0)),
        (8, Sale::new(1, 0, 0, &[], 0)),
        (8, Sale::new(1, 101, 0, &[], 0)),
        (9, Sale::new(1, 1, 0, &[], 0)),
        (9, Sale { groups: 9, ..Sale::new(1, 1, 0, &[&numbers], 0) }),
        (10, unmarked.clone()),
        (10, Sale { marks: vec![2; 80], ..unmarked.clone() }),
        (10, Sale { marks: marks_of(&[&numbers])[..79].to_vec(), ..unmarked }),
        (11, Sale::new(1, 1, 0, &[&numbers], 0)),
        (11, Sale::new(1, 1, 0, &[&numbers], 2)),
        (12, Sale::new(0, 1, 0, &[&numbers], STRAIGHT)),
        (12, Sale::new(1, 1, 0, halves, 3)),
        (12, Sale::new(2, 1, 0, &[&numbers], STRAIGHT)),
        (12, Sale::new(3, 1, 0, halves, 3)),
        (13, Sale::new(2, 1, 0, &[&numbers[..15]], STRAIGHT)),
        (13, Sale::new(2, 1, 0, halves, 2)),
    ];
    for (code, sale) in rows {
        refused_as_sell(house, sale, code);
    }
}

/// Kinds 1 to 3, and standard tickets with more than one way; whatever the stakes.
#[test]
fn code_31_before_14() {
    let house = &mut house();
    let singles: Groups = &[&[1], &[2], &[3], &[4], &[5], &[6], &[7], &[8]];
    let halves: Groups = &[&[1, 2, 3], &[4, 5, 6]];
    let shapes: [(u8, Groups, u8); 9] = [
        (1, &[&[1, 2, 3, 4, 5, 6]], STRAIGHT),
        (1, singles, 128),
        (2, halves, 1),
        (2, halves, 3),
        (3, &[&[1, 2, 3]], STRAIGHT),
        (3, halves, 2),
        (0, halves, 1),
        (0, halves, 3),
        (0, singles, 255),
    ];
    for (kind, groups, types) in shapes {
        for stake in [0, 15, 100, MOST_STAKE] {
            for feature_stake in [0, 50, 100, MOST_STAKE] {
                let sale = Sale::new(kind, 100, stake, groups, types).with_feature(feature_stake);
                refused(house, &Command::Sell(sale), 31);
            }
        }
        // Without the feature nothing is wrong with it.
        accepted(house, &Command::sell(kind, 1, 100, groups, types));
    }
}

#[test]
fn code_14_before_32() {
    let house = &mut house();
    for stake in [0, 10, 50, 99, 101, 150, u32::MAX] {
        for feature_stake in [0, 50, 100, MOST_STAKE] {
            refused(house, &straight(1, stake, feature_stake), 14);
        }
    }
}

/// Also where the charge would be too large, by the stake or by the feature stake.
#[test]
fn code_32_before_15() {
    let house = &mut house();
    for feature_stake in BAD_FEATURE_STAKES {
        for stake in [100, 999_900, 1_000_000, MOST_STAKE] {
            refused(house, &straight(1, stake, feature_stake), 32);
        }
        refused(house, &straight(100, 100, feature_stake), 32);
    }
    for feature_stake in [100, 200, 1_000, 999_800] {
        accepted(house, &straight(1, 100, feature_stake));
    }
}

/// One way made of two to eight groups may have the feature.
#[test]
fn several_groups_are_one_way() {
    let house = &mut house();
    let singles: Groups = &[&[1], &[2], &[3], &[4], &[5], &[6], &[7], &[8]];
    for groups in 1..=8 {
        for types in 1..1 << groups {
            let sale = Sale::new(0, 1, 100, &singles[..groups], types as u8).with_feature(100);
            let all_together = types == 1 << (groups - 1);
            if all_together {
                accepted(house, &Command::Sell(sale));
            } else {
                refused(house, &Command::Sell(sale), 31);
            }
        }
    }
}

/// 999,900 at most, and no sum or product of two stakes wraps round.
#[test]
fn code_15_charge() {
    let house = &mut house();
    for (games, stake, feature_stake, charge) in [
        (1, 100, 999_800, 999_900),
        (1, 999_800, 100, 999_900),
        (1, 500_000, 499_900, 999_900),
        (49, 10_200, 10_200, 999_600),
        (50, 10_200, 10_200, 999_600),
        (99, 5_100, 5_100, 999_600),
        (100, 5_100, 5_100, 999_600),
    ] {
        assert_eq!(accepted(house, &straight(games, stake, feature_stake)).cents, charge);
        refused(house, &straight(games, stake + 100, feature_stake), 15);
        refused(house, &straight(games, stake, feature_stake + 100), 15);
    }
    for games in [1, 2, 49, 50, 99, 100] {
        refused(house, &straight(games, MOST_STAKE, MOST_STAKE), 15);
        refused(house, &straight(games, 100, MOST_STAKE), 15);
        refused(house, &straight(games, MOST_STAKE, 100), 15);
    }
}

/// With two games each ticket would also run past the last game.
#[test]
fn codes_16_and_17() {
    let mut house = House::seasoned(1, House::LAST_GAME - 1, 0);
    for number in 1..=200 {
        assert_eq!(accepted(&mut house, &straight(1, 100, 100)).number, number);
    }
    refused(&mut house, &straight(2, 100, 100), 16);
    refused(&mut house, &straight(1, 100, 100), 16);
    refused(&mut house, &straight(2, 999_900, 100), 15);
    accepted(&mut house, &Command::Cancel { ticket: 100 });
    refused(&mut house, &straight(2, 100, 100), 17);
    assert_eq!(accepted(&mut house, &straight(1, 100, 100)).number, 201);

    let mut house = House::seasoned(1, 0, House::LAST_TICKET - 1);
    assert_eq!(accepted(&mut house, &straight(1, 100, 100)).number, 9_999_999);
    refused(&mut house, &straight(1, 100, 100), 17);
}
