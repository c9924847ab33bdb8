//! Rolls in which the guests know most of the balls: majors in plenty, cuts of
//! every depth, shared jackpots, features won beside them, and money left for
//! expiry and transfers.

use reference::Command;
use rolls::{shapes, Random, RollWriter};

pub fn lucky_rolls(seed: u64, rolls: usize) -> Vec<Vec<u8>> {
    let mut random = Random::new(seed);
    (0..rolls).map(|_| lucky_roll(&mut random)).collect()
}

/// What the guests of a game have in common.
struct Guests {
    /// The game's numbers, its balls first.
    numbers: Vec<u8>,
    /// How many in a hundred of their numbers are balls.
    luck: u64,
    /// They all play for the jackpots.
    jackpots: bool,
}

fn lucky_roll(random: &mut Random) -> Vec<u8> {
    let mut writer = RollWriter::new();
    // 1 March 1999 and 2099 among them.
    writer.open(random.pick(&[1, 425, 36_950, 64_500]));
    for _game in 0..4 {
        let numbers = random.numbers();
        let luck = random.pick(&[70, 85, 95, 100]);
        let guests = Guests { numbers, luck, jackpots: random.percent(20) };
        let tickets = random.pick(&[2, 5, 15, 40, 120]);
        for _ticket in 0..tickets {
            lucky_ticket(&mut writer, random, &guests);
        }
        draw_or_call_off(&mut writer, random, &guests);
        if random.percent(60) {
            writer.claim_last(tickets);
        }
        collect_some(&mut writer, random, &guests);
        // The next day, a year on, or the day after that.
        match random.below(3) {
            0 => writer.open_after(1),
            days => writer.open_a_year_on(days as u16 - 1),
        };
        writer.expire();
        give_some_back(&mut writer, random);
    }
    writer.finish()
}

/// Now and then an alarm comes before the last ball, and the balls are those of the next game.
fn draw_or_call_off(writer: &mut RollWriter, random: &mut Random, guests: &Guests) {
    if random.percent(15) {
        writer.balls(&guests.numbers[..random.between(0, 19) as usize]);
        writer.call_off();
    }
    writer.balls(&guests.numbers[..20]);
}

/// A ticket on the balls, but for one number now and then.
fn lucky_ticket(writer: &mut RollWriter, random: &mut Random, guests: &Guests) {
    let (front, back) = guests.numbers.split_at(20);
    let (mut front, mut back) = (front.to_vec(), back.to_vec());
    random.shuffle(&mut front);
    random.shuffle(&mut back);
    for (number, other) in front.iter_mut().zip(&mut back) {
        if !random.percent(guests.luck) {
            std::mem::swap(number, other);
        }
    }
    let numbers = [front, back].concat();
    let games = random.pick(&[1, 1, 1, 1, 2, 3, 50]);
    let sale = if !guests.jackpots && random.percent(25) {
        shapes::sale_with_feature(random, games, &numbers)
    } else {
        let shape =
            if guests.jackpots { shapes::jackpot(random) } else { shapes::any_shape(random) };
        let stake = shapes::stake(random, &shape, games);
        shapes::sale(&shape, games, stake, &numbers)
    };
    writer.give(&Command::Sell(sale));
}

/// Of the winners with games left, sometimes while the next game is drawn.
fn collect_some(writer: &mut RollWriter, random: &mut Random, guests: &Guests) {
    if random.percent(30) {
        writer.ball(guests.numbers[20]);
    }
    for ticket in writer.collectable() {
        if random.percent(40) {
            writer.collect(ticket);
        }
    }
    if writer.house().is_drawing() {
        writer.draw_from(&guests.numbers[20..]);
    }
}

/// Unclaimed money goes into a jackpot, whole or in part or one cent too much.
fn give_some_back(writer: &mut RollWriter, random: &mut Random) {
    let unclaimed = writer.house().unclaimed() as u32;
    let jackpot = random.pick(&[6, 8]);
    let cents = random.pick(&[unclaimed, unclaimed / 2, unclaimed + 1]);
    writer.transfer(jackpot, cents);
}
