//! Lucky Last, as asked since: every count of numbers with the last ball in and
//! out, operands about their limits, features beside cuts and in free games.

use crate::random::Random;
use crate::shapes::{self, Shape, JACKPOT, SPECIAL_ONE, SPECIAL_TWO, STANDARD};
use crate::writer::RollWriter;
use reference::price::{paid_games, MOST_CHARGE};
use reference::Command;

/// Feature stakes about their limits; the last are as large as four bytes hold.
const FEATURE_STAKES: [u32; 12] =
    [0, 1, 50, 99, 100, 101, 150, 200, 999_800, 999_900, 4_294_967_200, u32::MAX];

/// 1 to 15 numbers in 1 to 8 groups, all in one way, each with the last ball among
/// its numbers, with the nineteenth among them, and with neither.
pub fn numbers(seed: u64) -> Vec<Vec<u8>> {
    let mut random = Random::new(seed ^ 0x1A57);
    vec![numbers_in_groups(&mut random, |_| 1), numbers_in_groups(&mut random, |size| size.min(8))]
}

fn numbers_in_groups(random: &mut Random, groups: impl Fn(usize) -> usize) -> Vec<u8> {
    let mut writer = RollWriter::opened();
    for size in 1..=15 {
        for hit in [19, 18, 20] {
            let numbers = random.numbers();
            // One of the balls or none, and then numbers that are not drawn.
            let chosen = [&numbers[hit..=hit], &numbers[21..]].concat();
            let shape = one_way_of(size, groups(size));
            let stake = random.between(1, 5) as u32 * 100;
            let feature_stake = random.between(1, 5) as u32 * 100;
            let sale = shapes::sale(&shape, 1, stake, &chosen).with_feature(feature_stake);
            let sold = writer.give(&Command::Sell(sale));
            writer.balls(&numbers[..20]);
            writer.claim(sold.number);
        }
    }
    writer.finish()
}

/// So many numbers in so many groups, the odd ones in the first.
fn one_way_of(numbers: usize, groups: usize) -> Shape {
    let mut sizes = vec![numbers / groups; groups];
    sizes[0] += numbers % groups;
    Shape { kind: STANDARD, sizes, types: 1 << (groups - 1) }
}

/// Every kind, of one way and of several, at stakes and feature stakes about their
/// limits; what is accepted is cancelled at once.
pub fn operands() -> Vec<Vec<u8>> {
    let singles: Vec<usize> = vec![1; 8];
    let shapes = [
        (STANDARD, vec![1], 1),
        (STANDARD, vec![15], 1),
        (STANDARD, vec![16], 1),
        (STANDARD, vec![2, 3], 0b10),
        (STANDARD, singles.clone(), 0b1000_0000),
        (STANDARD, vec![2, 3], 0b1),
        (STANDARD, vec![2, 3], 0b11),
        (STANDARD, singles.clone(), 255),
        (JACKPOT, vec![6], 1),
        (JACKPOT, vec![6, 6], 1),
        (SPECIAL_ONE, vec![6], 1),
        (SPECIAL_ONE, vec![6, 8], 1),
        (SPECIAL_ONE, singles, 0b1000_0000),
        (SPECIAL_TWO, vec![3], 1),
        (SPECIAL_TWO, vec![3, 3], 0b11),
    ];
    let numbers: Vec<u8> = (1..=80).collect();
    let mut writer = RollWriter::opened();
    for (kind, sizes, types) in shapes {
        let shape = Shape { kind, sizes, types };
        for stake in [50, 100, 4_294_967_200] {
            for feature_stake in FEATURE_STAKES {
                let sale = shapes::sale(&shape, 1, stake, &numbers);
                writer.sell_and_cancel(&Command::Sell(sale.with_feature(feature_stake)));
            }
        }
    }
    vec![writer.finish()]
}

/// For each count of games the dearest ticket with most of its price in the stake,
/// in the feature stake or in neither, and what is too dear by a dollar of either.
pub fn charges() -> Vec<Vec<u8>> {
    let mut writer = RollWriter::opened();
    for games in [0, 1, 2, 48, 49, 50, 51, 98, 99, 100, 101] {
        let dearest = MOST_CHARGE as u32 / paid_games(games).max(1) / 100 * 100;
        let half = dearest / 200 * 100;
        for stake in [100, half, dearest - 100] {
            let feature_stake = dearest - stake;
            for (more, feature_more) in [(0, 0), (100, 0), (0, 100)] {
                let (stake, feature_stake) = (stake + more, feature_stake + feature_more);
                let sale = Command::lucky_last(games as u8, stake, feature_stake, &[7, 80]);
                writer.sell_and_cancel(&sale);
            }
        }
    }
    vec![writer.finish()]
}

/// Tickets with features in games whose major prizes are cut and in games without
/// any, paid and free; in the former most of them win major prizes too.
pub fn beside_cuts(seed: u64) -> Vec<Vec<u8>> {
    let mut random = Random::new(seed ^ 0xC07);
    [49, 50, 99, 100].into_iter().map(|games| cut_games(&mut random, games)).collect()
}

fn cut_games(random: &mut Random, games: u8) -> Vec<u8> {
    let mut writer = RollWriter::opened();
    let last = random.between(1, 80) as u8;
    let others: Vec<u8> = random.numbers().into_iter().filter(|&n| n != last).collect();
    for size in [1, 2, 5, 9, 15] {
        let with_last = [&[last], &others[..size - 1]].concat();
        for numbers in [&with_last, &others[..size]] {
            let feature_stake = random.pick(&[100, 300, 5_000]);
            writer.lucky_last(games, 100, feature_stake, numbers);
        }
    }
    for game in 1..=u32::from(games) {
        // The first games, and the last, among which the free ones are.
        let cut = game <= 4 || game + 4 > u32::from(games) && random.percent(70);
        if cut {
            cut_winners(&mut writer, random, last, &others);
        }
        let from = if cut { 0 } else { 40 };
        writer.balls(&others[from..from + 19]);
        writer.ball(if random.percent(60) { last } else { others[19] });
    }
    writer.claim_last(writer.house().issued());
    writer.finish()
}

/// One or two prizes at the cap and a smaller one when the first nineteen of the
/// numbers are drawn, and 14 of 15 with a feature, which win it all if the last
/// comes too.
fn cut_winners(writer: &mut RollWriter, random: &mut Random, last: u8, numbers: &[u8]) {
    let fifteen = [&[last], &numbers[..14]].concat();
    writer.lucky_last(1, 100, random.pick(&[100, 10_000, 900_000]), &fifteen);
    for _ticket in 0..random.between(1, 2) {
        writer.straight(STANDARD, 1, 100, &numbers[2..17]);
    }
    let five_of_six = [&numbers[..5], &numbers[60..61]].concat();
    writer.straight(STANDARD, 1, 600, &five_of_six);
}
