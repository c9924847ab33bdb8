//! The twentieth ball: small tickets, and way tickets of 255 ways each.

use crate::case::{singles, twenty, Case};
use reference::command::length;
use rolls::{scenarios, Random, RollWriter, Sharing};

/// Small tickets, and 200 tickets whose major prizes are cut. The uncut ones of
/// 255 ways are among the cases of growth.
pub fn cases() -> Vec<Case> {
    let crowded = scenarios::crowded_cuts(1);
    vec![
        one_way(),
        one_way_with_a_feature(),
        three_groups(),
        one_way_sharing(),
        ways_sharing(),
        last_ball("settlement, 200 x 255 ways, cut in 4 rounds", &crowded[1]),
        majors(249),
        majors(250),
        last_ball("settlement, 200 x 255 ways, every major prize floored", &crowded[0]),
    ]
}

/// Nobody has more than two numbers.
pub fn uncut(tickets: u32) -> Case {
    let name = format!("settlement, {tickets} x 255 ways, uncut");
    two_hits(&name, tickets, [1, 2], |writer, numbers| {
        writer.sell(0, 1, 10, &singles(&numbers[..8]), 255);
    })
}

/// One group of six numbers.
fn one_way() -> Case {
    two_hits("settlement, 200 x 1 way", 200, [1, 2], |writer, numbers| {
        writer.straight(0, 1, 100, &numbers[..6]);
    })
}

/// The same, and everybody has the last ball.
fn one_way_with_a_feature() -> Case {
    two_hits("settlement, 200 x 1 way with a feature", 200, [1, 20], |writer, numbers| {
        writer.lucky_last(1, 100, 100, &numbers[..6]);
    })
}

/// Three groups of two numbers, alone and in pairs.
fn three_groups() -> Case {
    two_hits("settlement, 200 x 6 ways", 200, [1, 2], |writer, numbers| {
        let groups: Vec<&[u8]> = numbers[..6].chunks(2).collect();
        writer.sell(0, 1, 50, &groups, 3);
    })
}

/// One group of six numbers, all drawn.
fn one_way_sharing() -> Case {
    sharing("settlement, 200 x 1 way, all sharing a jackpot", |writer, stake, numbers| {
        writer.straight(1, 1, stake, &numbers[..6]);
    })
}

/// Eight numbers, all drawn, six at a time.
fn ways_sharing() -> Case {
    sharing("settlement, 200 x 28 ways, all sharing a jackpot", |writer, stake, numbers| {
        writer.sell(1, 1, stake, &singles(&numbers[..8]), 0b10_0000);
    })
}

/// 200 tickets that have no number but the balls, at 200 stakes in no order.
fn sharing(name: &str, sell: impl Fn(&mut RollWriter, u32, &[u8])) -> Case {
    let mut random = Random::new(1);
    let mut stakes: Vec<u32> = (1..=200).map(|dollars| 100 * dollars).collect();
    random.shuffle(&mut stakes);
    let mut writer = RollWriter::opened();
    for stake in stakes {
        let mut numbers = twenty();
        random.shuffle(&mut numbers);
        sell(&mut writer, stake, &numbers);
    }
    let sharing = Sharing::of(writer.house(), &twenty(), 6);
    assert_eq!((sharing.winners.len(), sharing.largest_ways()), (200, sharing.ways() / 200));
    writer.balls(&twenty());
    last_ball(name, &writer.finish())
}

/// Tickets that have these two balls first and no other ball.
fn two_hits(
    name: &str,
    tickets: u32,
    hits: [u8; 2],
    sell: impl Fn(&mut RollWriter, &[u8]),
) -> Case {
    let mut random = Random::new(1);
    let mut writer = RollWriter::opened();
    for _ticket in 0..tickets {
        let mut numbers: Vec<u8> = (21..=80).collect();
        random.shuffle(&mut numbers);
        numbers[..2].copy_from_slice(&hits);
        sell(&mut writer, &numbers);
    }
    writer.balls(&twenty());
    last_ball(name, &writer.finish())
}

/// So many major prizes among 200 tickets of 255 ways: 57 on each of two dear
/// tickets with six hits, and one on each ticket with seven hits at 10 cents.
fn majors(majors: usize) -> Case {
    let mut random = Random::new(1);
    let mut tickets = vec![(6, 1_000); 2];
    tickets.resize(2 + majors - 2 * 57, (7, 10));
    tickets.resize(200, (6, 10));
    random.shuffle(&mut tickets);
    let mut writer = RollWriter::opened();
    for (hits, stake) in tickets {
        let (mut drawn, mut others) = (twenty(), (21..=80).collect::<Vec<u8>>());
        random.shuffle(&mut drawn);
        random.shuffle(&mut others);
        let eight = [&drawn[..hits], &others[..8 - hits]].concat();
        writer.sell(0, 1, stake, &singles(&eight), 255);
    }
    writer.balls(&twenty());
    let settlement = writer.house().last_settlement().expect("a game was drawn");
    assert_eq!((settlement.majors, settlement.cut_rounds), (majors, 3));
    let name = format!("settlement, 200 x 255 ways, {majors} major prizes, cut in 3 rounds");
    last_ball(&name, &writer.finish())
}

/// The twentieth ball of a roll, which ends its first game.
fn last_ball(name: &str, roll: &[u8]) -> Case {
    let mut at = 0;
    let mut balls = 0;
    loop {
        let size = length(roll[at]).expect("a whole roll");
        balls += usize::from(roll[at] == reference::command::BALL);
        if balls == 20 {
            let (before, measured) = (roll[..at].to_vec(), roll[at..at + size].to_vec());
            let name = name.to_string();
            return Case {
                name,
                before,
                measured,
                commands: 1,
                code: Some(0),
                shares: 1,
                houses: 1,
            };
        }
        at += size;
    }
}
