//! The places that document 01 names: cuts with many winners, shared jackpots,
//! Keno To Go, cancels about the draw, days about the expiry, the end of every
//! February, 200 tickets, transfers.

use crate::random::Random;
use crate::shapes::{self, EIGHTS, JACKPOT, SIXES, SPECIAL_TWO, STANDARD};
use crate::writer::RollWriter;
use reference::{Calendar, Command, Date, House, Sale};
use std::ops::RangeInclusive;

/// 200 way tickets with eight groups and types 255 on the numbers that will be
/// drawn: once with every way a full match, so that all majors are floored and
/// A goes below zero; then with fewer majors, of sizes far apart, so that
/// prizes are floored in several rounds and others survive.
pub fn crowded_cuts(seed: u64) -> Vec<Vec<u8>> {
    let mut random = Random::new(seed ^ 0xC0);
    let mut rolls = vec![all_floored(&mut random)];
    rolls.extend(CROWDS.iter().map(|crowd| several_rounds(&mut random, crowd)));
    rolls
}

/// Who wins majors among 200 guests who play eight single numbers. With more
/// than 250 majors A would go below zero, so they are few: a dear ticket makes
/// dozens of every size, seven hits at 10 cents make one, six make none.
pub struct Crowd {
    /// Hits and stake of the dear tickets.
    dear: &'static [(usize, u32)],
    /// So many have seven hits at 10 cents, the others six.
    seven_hits: usize,
    /// How many rounds the cut takes.
    pub rounds: usize,
}

/// Found by trying.
pub const CROWDS: [Crowd; 6] = [
    Crowd { dear: &[(7, 500), (4, 1_000), (7, 800), (4, 1_000)], seven_hits: 0, rounds: 4 },
    Crowd { dear: &[(6, 800), (7, 2_000)], seven_hits: 0, rounds: 4 },
    Crowd { dear: &[(6, 1_500), (7, 300), (7, 200)], seven_hits: 0, rounds: 4 },
    Crowd { dear: &[(5, 3_900), (5, 3_900)], seven_hits: 150, rounds: 3 },
    Crowd { dear: &[(6, 1_000), (6, 1_000)], seven_hits: 100, rounds: 3 },
    Crowd { dear: &[(7, 3_900)], seven_hits: 50, rounds: 2 },
];

/// Eight groups with fifteen numbers together.
fn eight_groups(numbers: &[u8]) -> Vec<&[u8]> {
    let (pairs, single) = numbers[..15].split_at(14);
    pairs.chunks(2).chain([single]).collect()
}

fn all_floored(random: &mut Random) -> Vec<u8> {
    let mut writer = RollWriter::opened();
    let mut drawn = random.numbers();
    drawn.truncate(20);
    for _ticket in 0..200 {
        let mut numbers = drawn.clone();
        random.shuffle(&mut numbers);
        let stake = random.pick(&[10, 20, 50, 100]);
        writer.sell(STANDARD, 1, stake, &eight_groups(&numbers), 255);
    }
    writer.balls(&drawn);
    writer.claim_last(200);
    writer.finish()
}

fn several_rounds(random: &mut Random, crowd: &Crowd) -> Vec<u8> {
    let mut writer = RollWriter::opened();
    let numbers = random.numbers();
    let mut tickets = crowd.dear.to_vec();
    tickets.extend(vec![(7, 10); crowd.seven_hits]);
    tickets.resize(200, (6, 10));
    random.shuffle(&mut tickets);
    for (hits, stake) in tickets {
        eight_singles(&mut writer, random, &numbers, hits, stake);
    }
    writer.balls(&numbers[..20]);
    writer.claim_last(200);
    writer.finish()
}

/// Eight groups of one number each, of which so many will be drawn.
fn eight_singles(
    writer: &mut RollWriter,
    random: &mut Random,
    numbers: &[u8],
    hits: usize,
    stake: u32,
) {
    let mut drawn = numbers[..20].to_vec();
    let mut others = numbers[20..].to_vec();
    random.shuffle(&mut drawn);
    random.shuffle(&mut others);
    let eight = [&drawn[..hits], &others[..8 - hits]].concat();
    let groups: Vec<&[u8]> = eight.chunks(1).collect();
    writer.sell(STANDARD, 1, stake, &groups, 255);
}

/// Several winning ways of several tickets share a jackpot, with odd cents in
/// most games; near misses beside them.
pub fn shared_jackpots(seed: u64) -> Vec<Vec<u8>> {
    let mut random = Random::new(seed ^ 0x1A);
    (0..8).map(|_| shared_jackpot_games(&mut random)).collect()
}

fn shared_jackpot_games(random: &mut Random) -> Vec<u8> {
    let mut writer = RollWriter::opened();
    for _game in 0..12 {
        let numbers = random.numbers();
        let tickets = random.between(2, 9) as u32;
        for _ticket in 0..tickets {
            jackpot_ticket(&mut writer, random, &numbers);
        }
        writer.balls(&numbers[..20]);
        writer.claim_last(tickets);
    }
    writer.finish()
}

/// A jackpot ticket on numbers most of which will be drawn.
pub(crate) fn jackpot_ticket(writer: &mut RollWriter, random: &mut Random, numbers: &[u8]) {
    let (size, count) = if random.percent(50) { random.pick(&SIXES) } else { random.pick(&EIGHTS) };
    let mut shape = shapes::jackpot_of(random, size, count);
    shape.sizes.truncate((20 / size).max(count));
    let mut chosen = numbers[..20].to_vec();
    random.shuffle(&mut chosen);
    if random.percent(30) {
        chosen[0] = numbers[79];
    }
    let stake = random.between(1, 25) as u32 * 100;
    writer.give(&shapes::sell(&shape, 1, stake, &chosen));
}

/// Jackpots that dear tickets have grown above $50,000 and above their
/// guarantees twice over, debts paid off and all, before they are hit.
pub fn grown_jackpots(seed: u64) -> Vec<Vec<u8>> {
    let mut random = Random::new(seed ^ 0x66);
    (0..3).map(|_| grown_jackpot(&mut random)).collect()
}

fn grown_jackpot(random: &mut Random) -> Vec<u8> {
    let mut writer = RollWriter::opened();
    for _game in 0..4 {
        let numbers = random.numbers();
        let (drawn, others) = numbers.split_at(20);
        for ticket in 0..100 {
            let size = if ticket % 2 == 0 { 6 } else { 8 };
            // Two numbers in: nothing is won back.
            let lost = [&drawn[..2], &others[..size - 2]].concat();
            writer.straight(JACKPOT, 1, 999_900 - random.below(50) as u32 * 100, &lost);
        }
        for size in [6, 6, 6, 8, 8] {
            let stake = random.pick(&[1, 2, 3, 9_999]) * 100;
            writer.straight(JACKPOT, 1, stake, &drawn[..size]);
        }
        // 7 of 8 beside it, dear enough to pass the cap of other kinds.
        let near = [&drawn[..7], &others[..1]].concat();
        writer.straight(JACKPOT, 1, 20_000, &near);
        writer.straight(STANDARD, 1, 20_000, &near);
        writer.balls(drawn);
        writer.claim_last(110);
    }
    writer.finish()
}

/// 49, 50, 99 and 100 games, of jackpot and other tickets, with a feature and
/// without, drawn to the end, with wins in paid and in free games and cancels that
/// come too late.
pub fn keno_to_go(seed: u64) -> Vec<Vec<u8>> {
    let mut random = Random::new(seed ^ 0x2C);
    (0..4).map(|_| keno_to_go_games(&mut random)).collect()
}

fn keno_to_go_games(random: &mut Random) -> Vec<u8> {
    let mut writer = RollWriter::opened();
    let numbers = random.numbers();
    for games in [49, 50, 51, 98, 99, 100, 101] {
        writer.straight(STANDARD, games, 100, &numbers[..1]);
        writer.straight(JACKPOT, games, 200, &numbers[..6]);
        writer.straight(SPECIAL_TWO, games, 300, &numbers[2..6]);
        // Where there are hits, number 18 comes last and 17 before it.
        writer.lucky_last(games, 100, 200, &numbers[18..19]);
        writer.lucky_last(games, 100, 300, &numbers[16..18]);
        // Sold, and cancelled before their first game begins.
        for sale in [
            Command::sell(JACKPOT, games, 100, &[&numbers[..8]], 1),
            Command::lucky_last(games, 100, 400, &numbers[18..19]),
        ] {
            writer.sell_and_cancel(&sale);
        }
    }
    let issued = writer.house().issued();
    for game in 1..=101 {
        writer.ball(numbers[60]);
        if game % 10 == 1 {
            writer.cancel(random.between(1, issued.into()) as u32);
        }
        // Hits come about the free games and now and then in between.
        let hit = game >= 96 || (47..=52).contains(&game) || random.percent(10);
        let from = if hit { 0 } else { 40 };
        writer.draw_from(&numbers[from..]);
        if game % 25 == 0 {
            writer.open_after(1);
        }
    }
    writer.claim_last(issued);
    writer.finish()
}

/// When a cancel comes, seen from the ticket's first game.
#[derive(Clone, Copy)]
enum Moment {
    AtOnce,
    SoldAndCancelledWhileDrawing,
    FirstBall,
    NineteenthBall,
    AfterTheFirstGame,
    WhileDrawingTheSecond,
    AfterTheLastGame,
    NextDay,
}

const MOMENTS: [Moment; 8] = [
    Moment::AtOnce,
    Moment::SoldAndCancelledWhileDrawing,
    Moment::FirstBall,
    Moment::NineteenthBall,
    Moment::AfterTheFirstGame,
    Moment::WhileDrawingTheSecond,
    Moment::AfterTheLastGame,
    Moment::NextDay,
];

/// Cancels at every moment, of tickets with few games and with 50, winning and
/// losing, of jackpot and other kinds and with a feature, a roll for each sort;
/// each is tried twice and then claimed.
pub fn cancels(seed: u64) -> Vec<Vec<u8>> {
    let mut random = Random::new(seed ^ 0xCA);
    let sorts: [fn(u8, &[u8]) -> Sale; 3] = [
        |games, numbers| Sale::new(STANDARD, games, 100, &[&numbers[19..20]], 1),
        |games, numbers| Sale::new(JACKPOT, games, 100, &[&numbers[14..20]], 1),
        |games, numbers| Sale::new(STANDARD, games, 100, &[&numbers[19..20]], 1).with_feature(300),
    ];
    sorts.into_iter().map(|sale| cancels_of(&mut random, sale)).collect()
}

fn cancels_of(random: &mut Random, sale: fn(u8, &[u8]) -> Sale) -> Vec<u8> {
    let mut writer = RollWriter::opened();
    for moment in MOMENTS {
        for games in [1, 2, 5, 50] {
            for wins in [false, true] {
                let numbers = random.numbers();
                // Up to the ticket's numbers, or without them.
                let from = if wins { 0 } else { 30 };
                let balls = &numbers[from..from + 20];
                cancel_at(&mut writer, moment, sale(games, &numbers), balls);
            }
        }
    }
    writer.finish()
}

fn cancel_at(writer: &mut RollWriter, moment: Moment, sale: Sale, balls: &[u8]) {
    if let Moment::SoldAndCancelledWhileDrawing = moment {
        writer.balls(&balls[..5]);
    }
    let games = sale.games;
    let ticket = writer.give(&Command::Sell(sale)).number;
    match moment {
        Moment::AtOnce | Moment::SoldAndCancelledWhileDrawing => {}
        Moment::FirstBall => writer.balls(&balls[..1]),
        Moment::NineteenthBall => writer.balls(&balls[..19]),
        Moment::AfterTheFirstGame => writer.balls(balls),
        Moment::WhileDrawingTheSecond => {
            writer.balls(balls);
            writer.balls(&balls[..10]);
        }
        Moment::AfterTheLastGame => (0..games.min(6)).for_each(|_| writer.balls(balls)),
        Moment::NextDay => {
            writer.balls(balls);
            writer.open_after(1);
        }
    }
    writer.cancel(ticket);
    writer.cancel(ticket);
    writer.claim(ticket);
    writer.draw_from(balls);
    writer.claim(ticket);
}

/// Tickets that finish on several days, by the draw and by a cancel, and an
/// Expire on each day about a year on; some are claimed on the last day.
pub fn expiries(seed: u64) -> Vec<Vec<u8>> {
    let mut random = Random::new(seed ^ 0xE0);
    // The second and the third begin on 27 February 1999 and 2099; the last comes
    // near the end of the two bytes of a day.
    let first_days = [1, 423, 36_948, 64_400, 65_100];
    first_days.into_iter().map(|day| expiry_days(&mut random, day)).collect()
}

fn expiry_days(random: &mut Random, first_day: u16) -> Vec<u8> {
    let mut writer = RollWriter::new();
    writer.open(first_day);
    for _day in 0..4 {
        let numbers = random.numbers();
        for stake in [100, 200, 300] {
            writer.straight(STANDARD, 1, stake, &numbers[..1]);
        }
        let cut_short = writer.straight(STANDARD, 3, 100, &numbers[..2]).number;
        writer.straight(STANDARD, 100, 100, &numbers[..1]);
        writer.straight(JACKPOT, 1, 100, &numbers[..6]);
        // The last ball is the only one among its numbers.
        writer.lucky_last(1, 100, 200, &numbers[19..22]);
        writer.balls(&numbers[..20]);
        writer.cancel(cut_short);
        writer.open_after(1);
    }
    // From two days before the first has stood for a year to past the last one.
    let a_year_on = Calendar::GREGORIAN.stands_through(first_day) as u16;
    for day in a_year_on - 2..=a_year_on + 6 {
        writer.open(day);
        let claimed = random.between(1, u64::from(writer.house().issued())) as u32;
        writer.claim(claimed);
        writer.expire();
        writer.expire();
        let unclaimed = writer.house().unclaimed() as u32;
        writer.transfer(random.pick(&[6, 8]), unclaimed / 2);
        writer.transfer(random.pick(&[6, 8]), unclaimed);
    }
    writer.claim_last(28);
    writer.finish()
}

/// The years in which a February ends on a day that an Open can name.
const FIRST_YEAR: u32 = 1998;
const LAST_YEAR: u32 = 2177;

/// Every end of a February from 1998 to 2177. Two tickets finish on each day from
/// 27 February to 2 March; the next year one is claimed on its last day, and an
/// Expire on each day about it takes the other.
pub fn februaries(seed: u64) -> Vec<Vec<u8>> {
    let mut random = Random::new(seed ^ 0x29);
    // Years that the program has room for; the last of a roll begins the next.
    let years = |first: u32| first..=(first + 20).min(LAST_YEAR);
    let firsts = (FIRST_YEAR..LAST_YEAR).step_by(20);
    firsts.map(|first| februaries_of(&mut random, years(first))).collect()
}

fn februaries_of(random: &mut Random, years: RangeInclusive<u32>) -> Vec<u8> {
    let mut writer = RollWriter::new();
    for year in years {
        let day = |month, day| Calendar::GREGORIAN.day(Date { year, month, day }) as u16;
        let (first, last) = (day(2, 26), day(3, 3));
        for day in first..=last {
            writer.open(day);
            writer.expire();
            claim_on_the_last_day(&mut writer);
            if day != first && day != last {
                two_winners(&mut writer, random);
            }
        }
    }
    writer.finish()
}

/// Of two tickets that finished on a day, the one with the odd number.
fn claim_on_the_last_day(writer: &mut RollWriter) {
    let today = u32::from(writer.house().today());
    let is_last_day = |finished_on| Calendar::GREGORIAN.stands_through(finished_on) == today;
    let odd = writer.house().live_tickets().filter(|ticket| ticket.number % 2 == 1);
    let leaving = odd.filter(|ticket| ticket.finished_on.is_some_and(is_last_day));
    let numbers: Vec<u32> = leaving.map(|ticket| ticket.number).collect();
    for number in numbers {
        writer.claim(number);
    }
}

/// Both on the first ball, mostly at stakes of their own.
fn two_winners(writer: &mut RollWriter, random: &mut Random) {
    let numbers = random.numbers();
    for _ticket in 0..2 {
        let stake = random.between(1, 60) as u32 * 100;
        writer.straight(STANDARD, 1, stake, &numbers[..1]);
    }
    writer.balls(&numbers[..20]);
}

/// 200 live tickets and the 201st, again after a cancel, a claim, a loss and an
/// expiry have made room.
pub fn crowded_lounge(seed: u64) -> Vec<Vec<u8>> {
    let mut random = Random::new(seed ^ 0x200);
    let mut writer = RollWriter::opened();
    let numbers = random.numbers();
    let (drawn, others) = numbers.split_at(20);
    let most = House::MOST_LIVE_TICKETS as u32;
    for _ticket in 0..most + 1 {
        writer.straight(STANDARD, 2, 100, &drawn[..1]);
    }
    writer.lucky_last(2, 100, 100, &drawn[..1]);
    writer.cancel(random.between(1, most.into()) as u32);
    writer.lucky_last(1, 100, 100, &others[..1]);
    writer.straight(STANDARD, 1, 100, &others[..1]);
    writer.lucky_last(1, 100, 100, &others[..1]);
    writer.balls(&drawn[..10]);
    writer.straight(STANDARD, 1, 100, &drawn[..1]);
    writer.balls(&drawn[10..]);
    // The lost ticket has left, the winners have not.
    writer.straight(STANDARD, 1, 100, &drawn[..1]);
    writer.straight(STANDARD, 1, 100, &drawn[..1]);
    writer.balls(drawn);
    writer.straight(STANDARD, 1, 100, &drawn[..1]);
    writer.claim(random.between(1, 99) as u32);
    writer.claim(random.between(100, most.into()) as u32);
    for _ticket in 0..3 {
        writer.straight(STANDARD, 1, 100, &others[..1]);
    }
    writer.open(400);
    writer.expire();
    for _ticket in 0..3 {
        writer.straight(STANDARD, 1, 100, &others[..1]);
    }
    vec![writer.finish()]
}

/// Unclaimed money into both primaries: none, one cent, part, all and one cent
/// too much, before, while and after drawing, and the jackpots hit after.
pub fn transfers(seed: u64) -> Vec<Vec<u8>> {
    let mut random = Random::new(seed ^ 0x7F);
    let mut writer = RollWriter::opened();
    for _year in 0..8 {
        let numbers = random.numbers();
        let stake = random.between(1, 500) as u32 * 100;
        writer.straight(STANDARD, 1, stake, &numbers[..3]);
        writer.balls(&numbers[..20]);
        writer.transfer(6, 1);
        writer.open_a_year_on(1);
        writer.expire();
        transfer_unclaimed(&mut writer, &mut random);
        for size in [6, 6, 8, 8] {
            let stake = random.between(1, 30) as u32 * 100;
            writer.straight(JACKPOT, 1, stake, &numbers[..size]);
        }
        writer.balls(&numbers[..20]);
        writer.claim_last(4);
    }
    vec![writer.finish()]
}

fn transfer_unclaimed(writer: &mut RollWriter, random: &mut Random) {
    let unclaimed = writer.house().unclaimed() as u32;
    for jackpot in [0, 6, 7, 8, 255] {
        writer.transfer(jackpot, 0);
        writer.transfer(jackpot, unclaimed + 1);
        writer.transfer(jackpot, u32::MAX);
        writer.transfer(jackpot, 1);
    }
    let part = random.between(1, u64::from(unclaimed) / 2) as u32;
    writer.transfer(6, part);
    writer.ball(1);
    writer.transfer(7, part);
    writer.transfer(8, part);
    writer.draw_from(&random.numbers());
    let rest = writer.house().unclaimed() as u32;
    writer.transfer(8, rest + 1);
    writer.transfer(8, rest);
    writer.transfer(8, 1);
}
