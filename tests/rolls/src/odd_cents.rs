//! Odd jackpot cents by stake, as asked since: any number of winners, at stakes
//! alike and not, with one winning way and with several, among tickets that do not
//! win or do not run; no odd cent, one, as many as ways have the largest stake, and
//! as many as there can be.

use crate::random::Random;
use crate::scenarios::jackpot_ticket;
use crate::shapes::{JACKPOT, STANDARD};
use crate::sharing::Sharing;
use crate::writer::RollWriter;
use reference::House;

/// So many tickets win together.
pub const WINNERS: [usize; 18] =
    [2, 3, 4, 5, 6, 7, 8, 9, 10, 12, 15, 20, 33, 50, 64, 100, 199, 200];

/// The dollars of so many tickets, in the order of their numbers.
type Dollars = fn(&mut Random, usize) -> Vec<u32>;

const DOLLARS: [Dollars; 5] = [alike, rising, falling, of_three, of_any];

/// How many of the cents are to be odd.
type OddCents = fn(&Sharing) -> u64;

const ODD_CENTS: [OddCents; 6] = [
    |_| 0,
    |_| 1,
    |sharing| sharing.ways() - 1,
    |sharing| sharing.largest_ways() - 1,
    |sharing| sharing.largest_ways(),
    |sharing| sharing.largest_ways() + 1,
];

/// A roll that is longer than this gets no game more: so each stays short enough to
/// be run command by command.
const LONG_ENOUGH: usize = 10_000;

fn alike(random: &mut Random, tickets: usize) -> Vec<u32> {
    vec![random.between(1, 20) as u32; tickets]
}

fn rising(_random: &mut Random, tickets: usize) -> Vec<u32> {
    (1..=tickets as u32).collect()
}

fn falling(_random: &mut Random, tickets: usize) -> Vec<u32> {
    (1..=tickets as u32).rev().collect()
}

fn of_three(random: &mut Random, tickets: usize) -> Vec<u32> {
    (0..tickets).map(|_| random.pick(&[1, 2, 5])).collect()
}

/// Few tickets at up to the dearest stake there is, many at less.
fn of_any(random: &mut Random, tickets: usize) -> Vec<u32> {
    let most = if tickets <= 10 { 9_999 } else { 100 };
    (0..tickets).map(|_| random.between(1, most) as u32).collect()
}

/// A house with $50,000 unclaimed, so that each primary can be any.
fn funded(random: &mut Random) -> RollWriter {
    let mut writer = RollWriter::opened();
    let numbers = random.numbers();
    writer.straight(STANDARD, 1, 100, &numbers[..15]);
    writer.balls(&numbers[..20]);
    writer.open_a_year_on(1);
    writer.expire();
    writer
}

/// Draws the game once both primaries leave as many odd cents as are wanted, and
/// claims ticket by ticket.
fn draw(writer: &mut RollWriter, balls: &[u8], odd_cents: OddCents) {
    for jackpot in [6, 8] {
        let sharing = Sharing::of(writer.house(), balls, jackpot);
        if sharing.winners.is_empty() {
            continue;
        }
        let most = sharing.ways() - 1;
        let cents = sharing.cents_short_of(odd_cents(&sharing).min(most));
        if cents > 0 {
            let moved = writer.transfer(jackpot, cents as u32);
            assert_eq!(moved.code, 0, "{cents} cents are unclaimed");
        }
    }
    writer.balls(balls);
    let finished = writer.house().live_tickets().filter(|ticket| ticket.is_finished());
    let finished: Vec<u32> = finished.map(|ticket| ticket.number).collect();
    for ticket in finished {
        writer.claim(ticket);
    }
}

/// Tickets of one way that all win the same jackpot, with others between them.
pub fn winners(seed: u64) -> Vec<Vec<u8>> {
    let mut random = Random::new(seed ^ 0x0DD);
    let mut rolls = Vec::new();
    let mut writer = funded(&mut random);
    let games = WINNERS.iter().flat_map(|&tickets| DOLLARS.map(|dollars| (tickets, dollars)));
    for ((tickets, dollars), odd_cents) in games.zip(ODD_CENTS.into_iter().cycle()) {
        if writer.length() > LONG_ENOUGH {
            let full = std::mem::replace(&mut writer, funded(&mut random));
            rolls.push(full.finish());
        }
        let dollars = dollars(&mut random, tickets);
        one_way_each(&mut writer, &mut random, &dollars, odd_cents);
    }
    rolls.push(writer.finish());
    rolls
}

fn one_way_each(
    writer: &mut RollWriter,
    random: &mut Random,
    dollars: &[u32],
    odd_cents: OddCents,
) {
    let numbers = random.numbers();
    let size = random.pick(&[6, 8]);
    let mut others = (House::MOST_LIVE_TICKETS - dollars.len()).min(dollars.len() / 3);
    for &dollars in dollars {
        if others > 0 && random.percent(50) {
            other_ticket(writer, random, &numbers);
            others -= 1;
        }
        writer.straight(JACKPOT, 1, 100 * dollars, &numbers[..size]);
    }
    draw(writer, &numbers[..20], odd_cents);
}

/// A ticket that runs and has no share, when the first twenty numbers are drawn.
fn other_ticket(writer: &mut RollWriter, random: &mut Random, numbers: &[u8]) {
    let stake = random.pick(&[100, 500, 2_000]);
    match random.below(4) {
        // One number short of a jackpot: it gives its part, and may win a prize.
        0 => writer.straight(JACKPOT, 1, stake, &numbers[15..21]),
        1 => writer.straight(JACKPOT, 1, stake, &numbers[13..21]),
        2 => writer.straight(STANDARD, 1, stake, &numbers[..1]),
        _ => writer.straight(STANDARD, 1, stake, &numbers[20..21]),
    };
}

/// A roll for each number of odd cents that is aimed at.
fn a_roll_each(seed: u64, roll: fn(&mut Random, OddCents) -> Vec<u8>) -> Vec<Vec<u8>> {
    let mut random = Random::new(seed);
    ODD_CENTS.map(|odd_cents| roll(&mut random, odd_cents)).to_vec()
}

/// Tickets with up to seventy ways, of which all win, some or none; mostly both
/// jackpots are won at once.
pub fn ways(seed: u64) -> Vec<Vec<u8>> {
    a_roll_each(seed ^ 0x3A75, games_of_ways)
}

fn games_of_ways(random: &mut Random, odd_cents: OddCents) -> Vec<u8> {
    let mut writer = funded(random);
    for _game in 0..12 {
        let numbers = random.numbers();
        for _ticket in 0..random.between(3, 9) {
            jackpot_ticket(&mut writer, random, &numbers);
        }
        draw(&mut writer, &numbers[..20], odd_cents);
    }
    writer.finish()
}

/// Winners whose numbers lie apart: between them stand tickets that have won before
/// and are not claimed, some of them cancelled since, and tickets that run and lose.
pub fn apart(seed: u64) -> Vec<Vec<u8>> {
    a_roll_each(seed ^ 0xA9A7, games_apart)
}

fn games_apart(random: &mut Random, odd_cents: OddCents) -> Vec<u8> {
    let mut writer = funded(random);
    for _game in 0..3 {
        winners_apart(&mut writer, random, odd_cents);
    }
    writer.finish()
}

fn winners_apart(writer: &mut RollWriter, random: &mut Random, odd_cents: OddCents) {
    let numbers = random.numbers();
    let (won, won_before) = (&numbers[..20], &numbers[40..60]);
    let mut cancelled = Vec::new();
    for _ticket in 0..20 {
        let stake = random.between(1, 3) as u32 * 100;
        match random.below(6) {
            0 => writer.straight(JACKPOT, 2, stake, &won[..6]),
            1 => writer.straight(JACKPOT, 2, stake, &won[..8]),
            2 => writer.straight(JACKPOT, 2, stake, &numbers[15..21]),
            3 => writer.straight(STANDARD, 1, stake, &won_before[..1]),
            4 => writer.straight(STANDARD, 2, stake, &won_before[..1]),
            _ => {
                let sold = writer.straight(STANDARD, 3, stake, &won_before[..1]);
                cancelled.push(sold.number);
                sold
            }
        };
    }
    writer.balls(won_before);
    for ticket in cancelled {
        writer.cancel(ticket);
    }
    for size in [6, 8] {
        let stake = random.between(1, 3) as u32 * 100;
        writer.straight(JACKPOT, 1, stake, &won[..size]);
    }
    draw(writer, won, odd_cents);
}

/// Keno To Go tickets in a free game, with stakes above and below those of tickets
/// that pay for it.
pub fn free_games(seed: u64) -> Vec<Vec<u8>> {
    a_roll_each(seed ^ 0xF4EE, free_game)
}

fn free_game(random: &mut Random, odd_cents: OddCents) -> Vec<u8> {
    let mut writer = funded(random);
    let numbers = random.numbers();
    let ticket = |writer: &mut RollWriter, random: &mut Random, games: u8| {
        let size = random.pick(&[6, 6, 8]);
        let stake = random.between(1, 3) as u32 * 100;
        writer.straight(JACKPOT, games, stake, &numbers[..size]);
    };
    for games in [50, 60, 50, 50] {
        ticket(&mut writer, random, games);
    }
    for _game in 1..=49 {
        writer.balls(&numbers[40..60]);
    }
    for _ticket in 0..4 {
        ticket(&mut writer, random, 1);
    }
    draw(&mut writer, &numbers[..20], odd_cents);
    writer.finish()
}
