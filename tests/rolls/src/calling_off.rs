//! A game called off, as asked since: at every moment of a ticket's life, with no ball in
//! and up to nineteen, and with every end of the ticket; up to the free games and among
//! them; several games in a row; with 200 live tickets; and between jackpots, to which it
//! gives nothing.

use crate::collecting::{draw_to_the_end, jackpot_tickets, Sort, SORTS};
use crate::random::Random;
use crate::scenarios::jackpot_ticket;
use crate::shapes::STANDARD;
use crate::writer::RollWriter;
use reference::{Command, House, Sale};

/// When the game is called off, seen from the ticket.
#[derive(Clone, Copy)]
enum Moment {
    InItsFirstGame,
    /// Of which nothing is its own.
    SoldWhileDrawing,
    AfterAWin,
    AfterAnother,
    /// With only the game being drawn left, if there are balls in.
    AfterACancel,
    /// In the new number's first game.
    AfterACollection,
    NextDay,
    InItsLastGame,
}

const MOMENTS: [Moment; 8] = [
    Moment::InItsFirstGame,
    Moment::SoldWhileDrawing,
    Moment::AfterAWin,
    Moment::AfterAnother,
    Moment::AfterACancel,
    Moment::AfterACollection,
    Moment::NextDay,
    Moment::InItsLastGame,
];

/// What becomes of the ticket then.
#[derive(Clone, Copy)]
enum End {
    Won,
    Lost,
    Cancelled,
    Collected,
    CalledOff,
    Expired,
}

const ENDS: [End; 6] =
    [End::Won, End::Lost, End::Cancelled, End::Collected, End::CalledOff, End::Expired];

/// Balls that are in; each moment and each end has all of them in turn.
const BALLS_IN: [usize; 4] = [0, 1, 11, 19];

/// Every moment with every end, a roll for each sort of ticket.
pub fn moments(seed: u64) -> Vec<Vec<u8>> {
    let mut random = Random::new(seed ^ 0xCA11);
    SORTS.into_iter().map(|sort| moments_of(&mut random, sort)).collect()
}

fn moments_of(random: &mut Random, sort: Sort) -> Vec<u8> {
    let mut writer = RollWriter::opened();
    for (row, moment) in MOMENTS.into_iter().enumerate() {
        for (column, end) in ENDS.into_iter().enumerate() {
            for games in [1, 3] {
                let numbers = random.numbers();
                let balls_in = BALLS_IN[(row + column) % BALLS_IN.len()];
                let sale = sort(games, &numbers);
                let ticket = bring_to(&mut writer, moment, sale, &numbers);
                call_off_at(&mut writer, balls_in, &numbers);
                end_with(&mut writer, end, ticket, &numbers);
            }
        }
    }
    writer.finish()
}

/// Sells the ticket and brings it to its moment; the answer is its number then.
fn bring_to(writer: &mut RollWriter, moment: Moment, sale: Sale, numbers: &[u8]) -> u32 {
    let games = sale.games;
    if let Moment::SoldWhileDrawing = moment {
        writer.ball(numbers[60]);
    }
    let ticket = writer.give(&Command::Sell(sale)).number;
    match moment {
        Moment::InItsFirstGame | Moment::SoldWhileDrawing => {}
        Moment::AfterAWin => writer.balls(&numbers[..20]),
        Moment::AfterAnother => drop(writer.call_off()),
        Moment::AfterACancel => {
            writer.ball(numbers[60]);
            writer.cancel(ticket);
        }
        Moment::AfterACollection => {
            writer.balls(&numbers[..20]);
            writer.ball(numbers[60]);
            writer.collect(ticket);
        }
        Moment::NextDay => {
            writer.balls(&numbers[..20]);
            writer.open_after(1);
        }
        Moment::InItsLastGame => (1..games).for_each(|_| writer.balls(&numbers[40..60])),
    }
    writer.house().issued()
}

/// With so many balls in, or the one that is in already; what may not be while drawing is
/// tried before and, with nineteen, after.
fn call_off_at(writer: &mut RollWriter, balls_in: usize, numbers: &[u8]) {
    writer.draw_some(&numbers[20..], balls_in);
    let unclaimed = writer.house().unclaimed() as u32;
    let tomorrow = writer.house().today() + 1;
    if writer.house().is_drawing() {
        writer.transfer(6, unclaimed / 2);
        writer.open(tomorrow);
    }
    writer.call_off();
    if balls_in == 19 {
        writer.transfer(6, unclaimed / 2);
        writer.open(tomorrow);
    }
}

fn end_with(writer: &mut RollWriter, end: End, ticket: u32, numbers: &[u8]) {
    match end {
        End::Won => draw_to_the_end(writer, ticket, numbers),
        End::Lost => draw_to_the_end(writer, ticket, &numbers[30..]),
        End::Cancelled => drop(writer.cancel(ticket)),
        End::Collected => {
            writer.collect(ticket);
            writer.draw_from(numbers);
        }
        End::CalledOff => {
            for _game in 0..3 {
                writer.call_off();
            }
        }
        End::Expired => {
            draw_to_the_end(writer, ticket, &numbers[30..]);
            writer.open_a_year_on(0);
            writer.expire();
            writer.open_after(1);
            writer.expire();
        }
    }
    writer.cancel(ticket);
    writer.collect(ticket);
    writer.claim(ticket);
    writer.claim(writer.house().issued());
}

/// Tickets of 49 to 100 games, sold before the first game and while it is drawn; half of them
/// have numbers that never come. Either only the last free game is called off, or the first
/// game, others now and then, and the last two.
pub fn free_games(seed: u64) -> Vec<Vec<u8>> {
    let mut random = Random::new(seed ^ 0xCAFE);
    let mut rolls = Vec::new();
    for games in [49, 50, 51, 99, 100] {
        for called_off in [0, 25] {
            rolls.push(free_games_of(&mut random, games, called_off));
        }
    }
    rolls
}

/// So many games of a hundred before the last are called off.
fn free_games_of(random: &mut Random, games: u8, called_off: u64) -> Vec<u8> {
    let mut writer = RollWriter::opened();
    let numbers = random.numbers();
    sell_each_sort(&mut writer, games, &numbers);
    writer.ball(numbers[59]);
    sell_each_sort(&mut writer, games, &numbers);
    end_game(&mut writer, &numbers[40..], called_off > 0);
    // Those of the game that was drawn or called off have begun, the others have not.
    for ticket in [1, 4, 9, 12] {
        writer.cancel(ticket);
    }
    for game in 2..=u32::from(games) + 1 {
        // Hits come about the free games and now and then before them.
        let hit = game + 4 > u32::from(games) || random.percent(10);
        writer.draw_some(&numbers[20..], random.pick(&BALLS_IN));
        let is_near_the_end = game + u32::from(called_off > 0) >= u32::from(games);
        let is_called_off = is_near_the_end || random.percent(called_off);
        end_game(&mut writer, &numbers[if hit { 0 } else { 40 }..], is_called_off);
        collect_some(&mut writer, random, 15);
    }
    writer.claim_last(writer.house().issued());
    writer.finish()
}

/// On the first numbers, and on the last, none of which is ever drawn.
fn sell_each_sort(writer: &mut RollWriter, games: u8, numbers: &[u8]) {
    for sort in SORTS {
        writer.give(&Command::Sell(sort(games, numbers)));
        writer.give(&Command::Sell(sort(games, &numbers[60..])));
    }
}

fn end_game(writer: &mut RollWriter, numbers: &[u8], is_called_off: bool) {
    if is_called_off {
        writer.call_off();
    } else {
        writer.draw_from(numbers);
    }
}

/// Up to six games in a row, with sales between them, of tickets with one to six games.
pub fn in_a_row(seed: u64) -> Vec<Vec<u8>> {
    let mut random = Random::new(seed ^ 0xCA0A);
    (0..4).map(|_| rows(&mut random)).collect()
}

fn rows(random: &mut Random) -> Vec<u8> {
    let mut writer = RollWriter::opened();
    for length in (1..=6).chain([3, 2, 1]) {
        let numbers = random.numbers();
        for sort in SORTS {
            let games = random.between(1, 6) as u8;
            writer.give(&Command::Sell(sort(games, &numbers)));
        }
        for _game in 0..length {
            if random.percent(40) {
                writer.draw_some(&numbers[20..], random.between(1, 19) as usize);
                writer.give(&Command::Sell(random.pick(&SORTS)(2, &numbers)));
            }
            writer.call_off();
        }
        collect_some(&mut writer, random, 30);
        writer.cancel(random.between(1, writer.house().issued().into()) as u32);
        writer.draw_from(&numbers);
        writer.claim_last(6);
        if random.percent(30) {
            writer.open_a_year_on(1);
            writer.expire();
        }
    }
    writer.claim_last(writer.house().issued());
    writer.finish()
}

/// 200 tickets run in the game, of one to three games; those that are finished with it make
/// room only when they are claimed.
pub fn two_hundred(seed: u64) -> Vec<Vec<u8>> {
    let mut random = Random::new(seed ^ 0xCA20);
    let mut writer = RollWriter::opened();
    let numbers = random.numbers();
    for place in 0..House::MOST_LIVE_TICKETS {
        let sort = SORTS[place % SORTS.len()];
        writer.give(&Command::Sell(sort(1 + (place % 3) as u8, &numbers)));
    }
    for balls_in in [19, 0, 7] {
        writer.draw_some(&numbers[20..], balls_in);
        writer.call_off();
        writer.straight(STANDARD, 1, 100, &numbers[..1]);
        let mut tickets = writer.collectable();
        random.shuffle(&mut tickets);
        for ticket in tickets.into_iter().take(20) {
            writer.collect(ticket);
        }
    }
    writer.claim_last(writer.house().issued());
    writer.straight(STANDARD, 1, 100, &numbers[..1]);
    vec![writer.finish()]
}

/// Jackpots shared game after game, with games called off between them in which the same
/// tickets would have shared: pools and odd cents are as if those had not been.
pub fn jackpots(seed: u64) -> Vec<Vec<u8>> {
    let mut random = Random::new(seed ^ 0xCA68);
    (0..6).map(|_| jackpots_of(&mut random)).collect()
}

fn jackpots_of(random: &mut Random) -> Vec<u8> {
    let mut writer = RollWriter::opened();
    let numbers = random.numbers();
    jackpot_tickets(&mut writer, random, [4, 8, 50], &numbers);
    for _game in 0..8 {
        jackpot_ticket(&mut writer, random, &numbers);
        let is_called_off = random.percent(40);
        if is_called_off {
            writer.balls(&numbers[..random.pick(&[0, 6, 8, 19])]);
        }
        end_game(&mut writer, &numbers, is_called_off);
        collect_some(&mut writer, random, 20);
    }
    writer.claim_last(writer.house().issued());
    writer.finish()
}

/// So many of a hundred tickets that can be collected are.
fn collect_some(writer: &mut RollWriter, random: &mut Random, percent: u64) {
    for ticket in writer.collectable() {
        if random.percent(percent) {
            writer.collect(ticket);
        }
    }
}
