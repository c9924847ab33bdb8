//! Tickets that "Ways" and "Price" allow, of every kind and shape.

use crate::random::Random;
use reference::price::{charge, feature_stake_in_order, stake_in_order, MOST_CHARGE};
use reference::ways::{marks_of, ways};
use reference::{Cents, Command, Kind, Sale};

pub const STANDARD: u8 = 0;
pub const JACKPOT: u8 = 1;
pub const SPECIAL_ONE: u8 = 2;
pub const SPECIAL_TWO: u8 = 3;

/// Ways of exactly six numbers: so many numbers in each group, and so many
/// groups in each way.
pub const SIXES: [(usize, usize); 4] = [(6, 1), (3, 2), (2, 3), (1, 6)];

/// Ways of exactly eight numbers.
pub const EIGHTS: [(usize, usize); 4] = [(8, 1), (4, 2), (2, 4), (1, 8)];

/// Stakes that are tried, those of way tickets first.
const STAKES: [u32; 18] = [
    10, 20, 30, 50, 60, 90, 100, 200, 300, 500, 1_000, 1_500, 2_000, 5_000, 20_000, 100_000,
    500_000, 999_900,
];

/// How many numbers each group has, and the types byte.
pub struct Shape {
    pub kind: u8,
    pub sizes: Vec<usize>,
    pub types: u8,
}

/// A shape of any kind.
pub fn any_shape(random: &mut Random) -> Shape {
    match random.below(10) {
        0..=4 => standard(random),
        5 | 6 => jackpot(random),
        7 | 8 => special_one(random),
        _ => special_two(random),
    }
}

/// Either one group, or several that together have no more than 15 numbers, or
/// large groups played one at a time.
pub fn standard(random: &mut Random) -> Shape {
    if random.percent(40) {
        let sizes = vec![random.between(1, 15) as usize];
        return Shape { kind: STANDARD, sizes, types: 1 };
    }
    let groups = random.between(2, 8) as usize;
    if random.percent(15) {
        let sizes = (0..groups).map(|_| random.between(1, 10) as usize).collect();
        return Shape { kind: STANDARD, sizes, types: 1 };
    }
    let mut sizes = vec![1; groups];
    for _number in groups as u64..random.between(groups as u64, 15) {
        let group = random.below(groups as u64) as usize;
        sizes[group] += 1;
    }
    Shape { kind: STANDARD, sizes, types: random.between(1, (1 << groups) - 1) as u8 }
}

/// One way of 1 to 15 numbers, made of all its groups: what can have a feature.
pub fn one_way(random: &mut Random) -> Shape {
    loop {
        let shape = standard(random);
        let groups = shape.sizes.len();
        if shape.sizes.iter().sum::<usize>() <= 15 {
            return Shape { types: 1 << (groups - 1), ..shape };
        }
    }
}

/// A way ticket with two ways or more.
pub fn special_one(random: &mut Random) -> Shape {
    loop {
        let shape = Shape { kind: SPECIAL_ONE, ..standard(random) };
        if count_ways(&shape) >= 2 {
            return shape;
        }
    }
}

pub fn jackpot(random: &mut Random) -> Shape {
    let (size, count) = if random.percent(60) { random.pick(&SIXES) } else { random.pick(&EIGHTS) };
    jackpot_of(random, size, count)
}

/// A jackpot shape with groups of one size.
pub fn jackpot_of(random: &mut Random, size: usize, count: usize) -> Shape {
    let groups = random.between(count as u64, 8) as usize;
    Shape { kind: JACKPOT, sizes: vec![size; groups], types: 1 << (count - 1) }
}

/// Ways of three to six numbers: of singles, pairs or triplets, or one group
/// each.
pub fn special_two(random: &mut Random) -> Shape {
    let (sizes, types) = match random.below(4) {
        0 => (vec![1; random.between(6, 8) as usize], (random.between(1, 15) << 2) as u8),
        1 => (vec![2; random.between(3, 8) as usize], (random.between(1, 3) << 1) as u8),
        2 => (vec![3; random.between(2, 8) as usize], random.between(1, 3) as u8),
        _ => (vec![random.between(3, 6) as usize], 1),
    };
    Shape { kind: SPECIAL_TWO, sizes, types }
}

pub fn count_ways(shape: &Shape) -> usize {
    let numbers: Vec<u8> = (1..=80).collect();
    ways(&marks(shape, &numbers), shape.sizes.len() as u8, shape.types).len()
}

/// The marks of a shape that takes its numbers from the front of the list.
pub fn marks(shape: &Shape, numbers: &[u8]) -> Vec<u8> {
    let mut left = numbers;
    let mut groups = Vec::new();
    for &size in &shape.sizes {
        let (group, rest) = left.split_at(size);
        groups.push(group);
        left = rest;
    }
    marks_of(&groups)
}

/// A stake that may be played on the shape, small ones more often.
pub fn stake(random: &mut Random, shape: &Shape, games: u8) -> u32 {
    stake_beside(random, shape, games, 0)
}

/// A stake that may be played on the shape together with this feature stake.
fn stake_beside(random: &mut Random, shape: &Shape, games: u8, feature_stake: u32) -> u32 {
    let ways = count_ways(shape);
    let kind = Kind::from_byte(shape.kind).expect("a kind");
    small_one(random, |stake| {
        let game_price = stake * ways as Cents + Cents::from(feature_stake);
        stake_in_order(kind, ways, stake) && charge(game_price, games.into()) <= MOST_CHARGE
    })
}

/// One of the allowed stakes, mostly of the smallest three.
fn small_one(random: &mut Random, allowed: impl Fn(Cents) -> bool) -> u32 {
    let stakes: Vec<u32> =
        STAKES.into_iter().filter(|&stake| allowed(Cents::from(stake))).collect();
    let few = if random.percent(70) { stakes.len().min(3) } else { stakes.len() };
    random.pick(&stakes[..few])
}

/// A sale of the shape, with its numbers from the front of the list.
pub fn sale(shape: &Shape, games: u8, stake: u32, numbers: &[u8]) -> Sale {
    Sale {
        kind: shape.kind,
        games,
        stake,
        groups: shape.sizes.len() as u8,
        types: shape.types,
        marks: marks(shape, numbers),
        feature_stake: None,
    }
}

/// The Sell of a shape, with its numbers from the front of the list.
pub fn sell(shape: &Shape, games: u8, stake: u32, numbers: &[u8]) -> Command {
    Command::Sell(sale(shape, games, stake, numbers))
}

/// A sale with a feature, of any shape and at any stakes that it may have.
pub fn sale_with_feature(random: &mut Random, games: u8, numbers: &[u8]) -> Sale {
    let shape = one_way(random);
    // The least stake has to go with it.
    let feature_stake = small_one(random, |feature_stake| {
        feature_stake_in_order(feature_stake)
            && charge(feature_stake + 100, games.into()) <= MOST_CHARGE
    });
    let stake = stake_beside(random, &shape, games, feature_stake);
    sale(&shape, games, stake, numbers).with_feature(feature_stake)
}
