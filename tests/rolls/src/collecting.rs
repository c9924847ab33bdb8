//! Collecting part way, as asked since: at every moment of a ticket's life, with every
//! end of the new number; one collection after another up to the free games; with 200
//! live tickets; and of jackpots, whose odd cents go by the new numbers.

use crate::random::Random;
use crate::scenarios::jackpot_ticket;
use crate::shapes::{JACKPOT, SPECIAL_ONE, STANDARD};
use crate::writer::RollWriter;
use reference::{Command, House, Sale};

/// A ticket for so many games that wins by the first balls and loses by those from the
/// 31st on.
pub(crate) type Sort = fn(u8, &[u8]) -> Sale;

pub(crate) const SORTS: [Sort; 4] = [
    |games, numbers| Sale::new(STANDARD, games, 100, &[&numbers[..1]], 1),
    |games, numbers| Sale::new(JACKPOT, games, 100, &[&numbers[..6]], 1),
    |games, numbers| Sale::new(STANDARD, games, 100, &[&numbers[19..20]], 1).with_feature(300),
    |games, numbers| Sale::new(SPECIAL_ONE, games, 100, &[&numbers[..3], &numbers[3..6]], 3),
];

/// When a collection comes, seen from the ticket's first game.
#[derive(Clone, Copy)]
enum Moment {
    AtOnce,
    FirstBall,
    AfterAWin,
    FirstBallOfTheSecond,
    NineteenthBallOfTheSecond,
    AfterACancel,
    NextDay,
    AfterTheLastGame,
}

const MOMENTS: [Moment; 8] = [
    Moment::AtOnce,
    Moment::FirstBall,
    Moment::AfterAWin,
    Moment::FirstBallOfTheSecond,
    Moment::NineteenthBallOfTheSecond,
    Moment::AfterACancel,
    Moment::NextDay,
    Moment::AfterTheLastGame,
];

/// What becomes of the number that was issued last.
#[derive(Clone, Copy)]
enum End {
    Claimed,
    Cancelled,
    CancelledAndClaimed,
    Collected,
    Lost,
    Expired,
}

const ENDS: [End; 6] = [
    End::Claimed,
    End::Cancelled,
    End::CancelledAndClaimed,
    End::Collected,
    End::Lost,
    End::Expired,
];

/// Every moment with every end, a roll for each sort of ticket. Each collection is tried
/// twice, and on the new number too.
pub fn moments(seed: u64) -> Vec<Vec<u8>> {
    let mut random = Random::new(seed ^ 0xC011);
    SORTS.into_iter().map(|sort| moments_of(&mut random, sort)).collect()
}

fn moments_of(random: &mut Random, sort: Sort) -> Vec<u8> {
    let mut writer = RollWriter::opened();
    for moment in MOMENTS {
        for end in ENDS {
            for games in [2, 4] {
                let numbers = random.numbers();
                collect_at(&mut writer, moment, sort(games, &numbers), &numbers);
                end_with(&mut writer, end, &numbers);
            }
        }
    }
    writer.finish()
}

fn collect_at(writer: &mut RollWriter, moment: Moment, sale: Sale, numbers: &[u8]) {
    let balls = &numbers[..20];
    let games = sale.games;
    let ticket = writer.give(&Command::Sell(sale)).number;
    match moment {
        Moment::AtOnce => {}
        Moment::FirstBall => writer.balls(&balls[..1]),
        Moment::AfterAWin => writer.balls(balls),
        Moment::FirstBallOfTheSecond => {
            writer.balls(balls);
            writer.ball(numbers[60]);
        }
        Moment::NineteenthBallOfTheSecond => {
            writer.balls(balls);
            writer.balls(&balls[..19]);
        }
        Moment::AfterACancel => {
            writer.balls(balls);
            writer.balls(&balls[..10]);
            writer.cancel(ticket);
        }
        Moment::NextDay => {
            writer.balls(balls);
            writer.open_after(1);
        }
        Moment::AfterTheLastGame => (0..games).for_each(|_| writer.balls(balls)),
    }
    writer.collect(ticket);
    writer.collect(ticket);
    writer.claim(ticket);
    writer.collect(writer.house().issued());
}

fn end_with(writer: &mut RollWriter, end: End, numbers: &[u8]) {
    let last = writer.house().issued();
    match end {
        End::Claimed => {
            writer.draw_from(numbers);
            draw_to_the_end(writer, last, &numbers[30..]);
        }
        End::Cancelled => drop(writer.cancel(last)),
        End::CancelledAndClaimed => {
            writer.draw_from(numbers);
            writer.cancel(last);
        }
        End::Collected => {
            writer.draw_from(numbers);
            writer.collect(last);
            writer.draw_from(numbers);
            draw_to_the_end(writer, last + 1, numbers);
        }
        End::Lost => draw_to_the_end(writer, last, &numbers[30..]),
        End::Expired => {
            draw_to_the_end(writer, last, numbers);
            writer.open_a_year_on(0);
            writer.expire();
            writer.open_after(1);
            writer.expire();
        }
    }
    writer.cancel(last);
    writer.claim(last);
    writer.claim(writer.house().issued());
}

/// At most so far that the ticket has no game left.
pub(crate) fn draw_to_the_end(writer: &mut RollWriter, number: u32, numbers: &[u8]) {
    let is_running = |house: &House| {
        house.live_tickets().any(|ticket| ticket.number == number && !ticket.is_finished())
    };
    while is_running(writer.house()) {
        writer.draw_from(numbers);
    }
}

/// Tickets of 5 to 100 games, won now and then and collected after each win or while the
/// next game is drawn, up to the free games; with cancels of new numbers, which a Keno To
/// Go is too late for.
pub fn in_a_row(seed: u64) -> Vec<Vec<u8>> {
    let mut random = Random::new(seed ^ 0xC0CA);
    [5, 49, 50, 51, 99, 100].into_iter().map(|games| row_of(&mut random, games)).collect()
}

fn row_of(random: &mut Random, games: u8) -> Vec<u8> {
    let mut writer = RollWriter::opened();
    let numbers = random.numbers();
    for sort in SORTS {
        writer.give(&Command::Sell(sort(games, &numbers)));
        // A second of each, to be claimed at the end.
        writer.give(&Command::Sell(sort(games, &numbers)));
    }
    for game in 1..=u32::from(games) {
        // Hits come about the free games and now and then before them.
        let hit = game + 4 > u32::from(games) || random.percent(20);
        let from = if hit { 0 } else { 40 };
        writer.draw_from(&numbers[from..]);
        writer.balls(&numbers[20..20 + random.pick(&[0, 1, 5, 19])]);
        for ticket in writer.collectable() {
            if random.percent(50) {
                collect_and_try(&mut writer, random, ticket);
            }
        }
        if game == 40 {
            writer.open_after(1);
        }
    }
    writer.draw_from(&numbers[40..]);
    writer.claim_last(writer.house().issued());
    writer.finish()
}

/// Tickets of fewer than 50 games would be gone after a cancel: it is tried on few.
fn collect_and_try(writer: &mut RollWriter, random: &mut Random, ticket: u32) {
    let new = writer.collect(ticket).number;
    writer.collect(ticket);
    let to_go = |house: &House| {
        house.live_tickets().any(|ticket| ticket.number == new && ticket.terms.is_keno_to_go())
    };
    if to_go(writer.house()) || random.percent(5) {
        writer.cancel(new);
    }
    writer.claim(new);
}

/// 200 live tickets that have won, collected in no order before and while the second
/// game is drawn; no sale finds room, and the list keeps its length.
pub fn two_hundred(seed: u64) -> Vec<Vec<u8>> {
    let mut random = Random::new(seed ^ 0xC200);
    let mut writer = RollWriter::opened();
    let numbers = random.numbers();
    for place in 0..House::MOST_LIVE_TICKETS {
        let sort = SORTS[place % SORTS.len()];
        writer.give(&Command::Sell(sort(3, &numbers)));
    }
    writer.balls(&numbers[..20]);
    for balls_in in [0, 1, 19] {
        writer.balls(&numbers[writer.house().balls().len()..balls_in]);
        let mut tickets = writer.collectable();
        random.shuffle(&mut tickets);
        for ticket in tickets.into_iter().take(66) {
            writer.collect(ticket);
        }
        writer.straight(STANDARD, 1, 100, &numbers[..1]);
    }
    writer.draw_from(&numbers);
    writer.draw_from(&numbers);
    // All are finished: 33, and then there is room.
    for ticket in [1, 100, 200, 250, 398] {
        writer.collect(ticket);
    }
    writer.claim_last(400);
    writer.straight(STANDARD, 1, 100, &numbers[..1]);
    vec![writer.finish()]
}

/// Jackpots shared game after game by the same tickets, some of which collect in between:
/// then their ways are the last of their stake to get an odd cent.
pub fn jackpots(seed: u64) -> Vec<Vec<u8>> {
    let mut random = Random::new(seed ^ 0xC6C8);
    (0..6).map(|_| shared_again(&mut random)).collect()
}

fn shared_again(random: &mut Random) -> Vec<u8> {
    let mut writer = RollWriter::opened();
    let numbers = random.numbers();
    jackpot_tickets(&mut writer, random, [4, 6, 50], &numbers);
    for _game in 0..6 {
        jackpot_ticket(&mut writer, random, &numbers);
        writer.draw_from(&numbers);
        if random.percent(50) {
            writer.ball(numbers[60]);
        }
        let mut tickets = writer.collectable();
        random.shuffle(&mut tickets);
        for ticket in tickets {
            if random.percent(60) {
                writer.collect(ticket);
            }
        }
    }
    writer.claim_last(writer.house().issued());
    writer.finish()
}

/// Three to nine that win by the same balls, of one of these numbers of games each.
pub(crate) fn jackpot_tickets(
    writer: &mut RollWriter,
    random: &mut Random,
    games: [u8; 3],
    numbers: &[u8],
) {
    for _ticket in 0..random.between(3, 9) {
        let size = random.pick(&[6, 6, 8]);
        let stake = random.pick(&[100, 100, 200, 700]);
        writer.straight(JACKPOT, random.pick(&games), stake, &numbers[..size]);
    }
}
