//! Every value of every one-byte operand, and ticket numbers, days and cents
//! that a slip of a byte would take for others.

use reference::{Command, Sale};
use rolls::RollWriter;

pub fn edge_rolls() -> Vec<Vec<u8>> {
    vec![sale_operands(), balls(), tickets(), transfers(), days()]
}

/// Tickets of every kind, of one way and of many.
fn good_sales() -> Vec<Vec<u8>> {
    let numbers: Vec<u8> = (1..=16).collect();
    let singles: Vec<&[u8]> = numbers[..8].chunks(1).collect();
    let pairs: Vec<&[u8]> = numbers.chunks(2).collect();
    let triplets: Vec<&[u8]> = numbers[..6].chunks(3).collect();
    let sales = [
        Command::sell(0, 1, 100, &[&numbers[..15]], 1),
        Command::sell(0, 2, 100, &singles, 255),
        Command::sell(1, 50, 100, &[&numbers[..6]], 1),
        Command::sell(1, 1, 100, &pairs, 8),
        Command::sell(2, 100, 100, &triplets, 3),
        Command::sell(3, 3, 100, &pairs, 6),
        Command::lucky_last(1, 100, 100, &numbers[..15]),
        Command::Sell(Sale::new(0, 50, 100, &pairs[..3], 4).with_feature(0x0100)),
    ];
    sales.iter().map(Command::encode).collect()
}

/// Kind, games, stake, groups, types, some marks and a feature stake, a byte at a
/// time.
fn sale_operands() -> Vec<u8> {
    let mut writer = RollWriter::opened();
    for sale in good_sales() {
        let places = [1, 2, 3, 4, 5, 6, 7, 8, 9, 16, 40, 88, 89, 90, 91, 92];
        for place in places.into_iter().filter(|&place| place < sale.len()) {
            for value in 0..=255 {
                let mut sale = sale.clone();
                sale[place] = value;
                writer.sell_and_cancel(&Command::decode(&sale));
            }
        }
    }
    writer.finish()
}

/// Every number as the first ball, and as a later one.
fn balls() -> Vec<u8> {
    let mut writer = RollWriter::opened();
    for _time in 0..3 {
        for number in 0..=255 {
            writer.ball(number);
        }
        for number in (0..=255).rev() {
            writer.ball(number);
        }
    }
    writer.finish()
}

/// Numbers of four bytes of which some part looks like another number.
fn look_alikes(number: u32) -> impl Iterator<Item = u32> {
    let beside = [0, 1 << 8, 1 << 16, 1 << 24, 1 << 31, u32::MAX - 300];
    beside.into_iter().map(move |more| number + more)
}

/// Tickets that are waiting, running, due, claimed, cancelled, collected and reissued, and
/// one whose only game was called off.
fn tickets() -> Vec<u8> {
    let mut writer = RollWriter::opened();
    for games in [1, 1, 1, 2, 50, 3] {
        writer.straight(0, games, 100, &[1]);
    }
    writer.cancel(3);
    writer.balls(&(1..=20).collect::<Vec<u8>>());
    writer.claim(2);
    writer.straight(0, 1, 100, &[1]);
    writer.collect(6);
    writer.call_off();
    writer.straight(0, 1, 100, &[1]);
    writer.ball(80);
    for number in 0..=10 {
        for ticket in look_alikes(number).skip(1) {
            writer.cancel(ticket);
            writer.claim(ticket);
            writer.collect(ticket);
        }
    }
    for number in 0..=10 {
        writer.collect(number);
        writer.cancel(number);
        writer.claim(number);
    }
    writer.finish()
}

/// Every jackpot byte, and cents about what is unclaimed.
fn transfers() -> Vec<u8> {
    let mut writer = RollWriter::new();
    // 1 March 1999, and 1 and 2 March 2000.
    writer.open(425);
    for _ticket in 0..20 {
        writer.straight(0, 1, 5_000, &[1, 2, 3, 4, 5, 6]);
    }
    writer.transfer(6, 1);
    writer.balls(&(1..=20).collect::<Vec<u8>>());
    writer.open(791);
    writer.expire();
    writer.open(792);
    writer.transfer(6, 1);
    writer.expire();
    for jackpot in 0..=255 {
        for cents in [0, 1, 256, 65_536, u32::MAX] {
            writer.transfer(jackpot, cents);
        }
    }
    let unclaimed = writer.house().unclaimed() as u32;
    writer.ball(1);
    writer.transfer(6, unclaimed);
    writer.balls(&(2..=20).collect::<Vec<u8>>());
    for cents in [unclaimed + 1, unclaimed - 1, 1, 1] {
        writer.transfer(8, cents);
    }
    writer.finish()
}

/// Up to the last day that an Open can name, and expiry about it: 65,169 and
/// 65,170 are a year before the last day but one and the last.
fn days() -> Vec<u8> {
    let mut writer = RollWriter::new();
    for day in [0, 1, 255, 256, 255, 65_169, 65_170] {
        writer.open(day);
        writer.straight(0, 1, 100, &[1]);
        writer.balls(&(1..=20).collect::<Vec<u8>>());
    }
    for day in [0, 1, 65_534, 65_535, 65_535, 0] {
        writer.open(day);
        writer.expire();
    }
    writer.claim_last(7);
    writer.finish()
}
