//! Sweeps over "Ways", "Price" and "Prizes": every schedule cell, every pair of
//! groups and types, stakes and charges about their limits, ways about 15.

use crate::random::Random;
use crate::shapes::{JACKPOT, SPECIAL_ONE, SPECIAL_TWO, STANDARD};
use crate::writer::RollWriter;
use reference::ledger::LEDGER_BYTES;
use reference::price::{paid_games, MOST_CHARGE};
use reference::{Command, Sale};

/// Every kind, size and match, each alone in a game, at a dollar and at three,
/// where the cap is met.
pub fn schedule_cells(seed: u64) -> Vec<Vec<u8>> {
    let mut random = Random::new(seed ^ 0x5C);
    [100, 300].into_iter().map(|stake| schedule_cells_at(&mut random, stake)).collect()
}

fn schedule_cells_at(random: &mut Random, stake: u32) -> Vec<u8> {
    let mut writer = RollWriter::opened();
    for (kind, sizes) in [
        (STANDARD, (1..=15).collect::<Vec<usize>>()),
        (JACKPOT, vec![6, 8]),
        (SPECIAL_ONE, (1..=15).collect()),
        (SPECIAL_TWO, (3..=6).collect()),
    ] {
        for size in sizes {
            for matched in 0..=size {
                schedule_cell(&mut writer, random, kind, stake, size, matched);
            }
        }
    }
    writer.finish()
}

/// One ticket, one game, one claim. A Special One needs a second way, which
/// matches nothing.
fn schedule_cell(
    writer: &mut RollWriter,
    random: &mut Random,
    kind: u8,
    stake: u32,
    size: usize,
    matched: usize,
) {
    let numbers = random.numbers();
    let (drawn, others) = numbers.split_at(20);
    let way = [&drawn[..matched], &others[..size - matched]].concat();
    let second_way = &others[size - matched..][..size];
    let ticket = if kind == SPECIAL_ONE {
        writer.sell(kind, 1, stake, &[&way, second_way], 1)
    } else {
        writer.straight(kind, 1, stake, &way)
    };
    writer.balls(drawn);
    writer.claim(ticket.number);
}

/// Every count of groups, 0 to 9, with every types byte; what is accepted is
/// cancelled at once.
pub fn groups_and_types() -> Vec<Vec<u8>> {
    let mut rolls = Vec::new();
    let mut writer = RollWriter::opened();
    for groups in 0..=9 {
        for types in 0..=255 {
            if writer.length() + 100 > LEDGER_BYTES {
                rolls.push(std::mem::replace(&mut writer, RollWriter::opened()).finish());
            }
            // A stake of 10 only goes with 50 ways or more, 100 with any.
            let stake = if types % 3 == 0 { 10 } else { 100 };
            writer.sell_and_cancel(&singles(STANDARD, 1, stake, groups, types));
        }
    }
    rolls.push(writer.finish());
    rolls
}

/// A ticket with groups of one number each.
fn singles(kind: u8, games: u8, stake: u32, groups: u8, types: u8) -> Command {
    let mut marks = vec![0; 80];
    for group in 1..=groups {
        marks[usize::from(group) * 7] = group;
    }
    Command::Sell(Sale { kind, games, stake, groups, types, marks, feature_stake: None })
}

/// Stakes about every limit, on 1 to 255 ways. Groups can make 17 ways and 20,
/// but not 18 or 19; 49 and 50 they can.
pub fn stakes() -> Vec<Vec<u8>> {
    const STAKES: [u32; 27] = [
        0,
        1,
        9,
        10,
        11,
        19,
        20,
        25,
        30,
        40,
        49,
        50,
        51,
        55,
        60,
        90,
        99,
        100,
        101,
        110,
        150,
        190,
        200,
        250,
        300,
        1_000,
        u32::MAX,
    ];
    // Groups and types, and so many ways.
    let shapes: [(u8, u8); 14] = [
        (1, 0b1),         // 1
        (2, 0b1),         // 2
        (3, 0b1),         // 3
        (4, 0b1),         // 4
        (4, 0b1111),      // 15
        (8, 0b1100_0001), // 17
        (6, 0b100),       // 20
        (5, 0b1110),      // 25
        (7, 0b10_0100),   // 42
        (7, 0b10_0101),   // 49
        (7, 0b110_0101),  // 50
        (8, 0b100),       // 56
        (8, 0b10_1000),   // 98
        (8, 0b1111_1111), // 255
    ];
    let mut rolls = Vec::new();
    for part in shapes.chunks(7) {
        let mut writer = RollWriter::opened();
        for &(groups, types) in part {
            for stake in STAKES {
                writer.sell_and_cancel(&singles(STANDARD, 1, stake, groups, types));
            }
        }
        jackpot_stakes(&mut writer, &STAKES);
        rolls.push(writer.finish());
    }
    rolls
}

/// Four ways of six numbers, where other kinds could be played at 50 cents.
fn jackpot_stakes(writer: &mut RollWriter, stakes: &[u32]) {
    let pairs: [&[u8]; 4] = [&[1, 2], &[3, 4], &[5, 6], &[7, 8]];
    for &stake in stakes {
        writer.sell_and_cancel(&Command::sell(JACKPOT, 1, stake, &pairs, 0b100));
    }
}

/// For each count of games the dearest stake and the next one, which is too
/// dear.
pub fn charges() -> Vec<Vec<u8>> {
    let mut writer = RollWriter::opened();
    for games in 0..=101 {
        let paid = paid_games(games).max(1);
        let dearest = MOST_CHARGE as u32 / paid / 100 * 100;
        for stake in [100, dearest, dearest + 100] {
            writer.sell_and_cancel(&singles(STANDARD, games as u8, stake, 1, 1));
        }
    }
    vec![writer.finish()]
}

/// Ways of 1 to 18 numbers of every kind, as one group and as two, and tickets
/// whose ways are of different sizes.
pub fn way_sizes() -> Vec<Vec<u8>> {
    let numbers: Vec<u8> = (1..=80).rev().collect();
    let mut writer = RollWriter::opened();
    for kind in 0..=3 {
        for size in (1..=18).chain([40, 80]) {
            writer.sell_and_cancel(&Command::sell(kind, 1, 100, &[&numbers[..size]], 1));
        }
        for size in 2..=18 {
            let (one, other) = numbers[..size].split_at(size / 2);
            for types in 1..=3 {
                writer.sell_and_cancel(&Command::sell(kind, 1, 100, &[one, other], types));
            }
        }
    }
    vec![writer.finish()]
}
