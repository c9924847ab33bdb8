//! A day in the lounge: sales, mostly of small tickets, cancels, twenty games,
//! claims, and now and then a slip of the hand.

use crate::case::Case;
use reference::command::length;
use rolls::{Random, RollWriter};

const GAMES: usize = 20;
const SALES_A_GAME: u64 = 16;

pub fn case() -> Case {
    let mut random = Random::new(1998);
    let mut writer = RollWriter::opened();
    a_year_ago(&mut writer, &mut random);
    let at = writer.length();
    day(&mut writer, &mut random);
    let roll = writer.finish();
    let (before, measured) = (roll[..at].to_vec(), roll[at..].to_vec());
    let commands = commands_of(&measured).len();
    let name = format!("a day's roll of {commands} commands");
    Case { name, before, measured, commands, code: None, shares: 1, houses: 1 }
}

/// The commands of so many days, one after another.
pub fn days(count: u16) -> Vec<Vec<u8>> {
    let mut random = Random::new(1998);
    let mut writer = RollWriter::new();
    for day in 1..=count {
        writer.open(day);
        writer.expire();
        for _game in 0..GAMES {
            game(&mut writer, &mut random);
        }
    }
    commands_of(&writer.finish())
}

fn commands_of(roll: &[u8]) -> Vec<Vec<u8>> {
    let mut unread = roll;
    let mut commands = Vec::new();
    while !unread.is_empty() {
        let (command, rest) = unread.split_at(length(unread[0]).expect("a whole roll"));
        commands.push(command.to_vec());
        unread = rest;
    }
    commands
}

/// Prizes that nobody came for.
fn a_year_ago(writer: &mut RollWriter, random: &mut Random) {
    for _game in 0..3 {
        let numbers = random.numbers();
        writer.straight(0, 1, 500, &numbers[..3]);
        writer.balls(&numbers[..20]);
    }
}

fn day(writer: &mut RollWriter, random: &mut Random) {
    writer.open(400);
    writer.expire();
    let unclaimed = writer.house().unclaimed() as u32;
    writer.transfer(6, unclaimed + 1);
    writer.transfer(6, unclaimed / 2);
    writer.transfer(8, unclaimed / 2);
    for _game in 0..GAMES {
        game(writer, random);
    }
    writer.expire();
}

/// Guests come before the draw and a few during it; winners are paid after it.
fn game(writer: &mut RollWriter, random: &mut Random) {
    for _sale in 0..random.between(SALES_A_GAME - 3, SALES_A_GAME + 3) {
        sale(writer, random);
    }
    if random.percent(60) {
        writer.cancel(writer.house().issued());
    }
    let numbers = random.numbers();
    writer.balls(&numbers[..7]);
    sale(writer, random);
    if random.percent(30) {
        writer.ball(numbers[0]);
    }
    writer.balls(&numbers[7..20]);
    claims(writer, random);
}

fn sale(writer: &mut RollWriter, random: &mut Random) {
    let numbers = random.numbers();
    let games = random.pick(&[1, 1, 1, 1, 2, 3, 5]);
    let stake = random.pick(&[100, 100, 200, 500]);
    match random.below(100) {
        0..=69 => {
            let size = random.between(1, 10) as usize;
            writer.straight(0, games, stake, &numbers[..size]);
        }
        70..=79 => {
            let size = random.pick(&[6, 6, 8]);
            writer.straight(1, games, stake, &numbers[..size]);
        }
        80..=92 => {
            let groups: Vec<&[u8]> = numbers[..8].chunks(2).collect();
            writer.sell(random.pick(&[0, 2]), games, 50, &groups, 0b1110);
        }
        93..=96 => {
            let groups: Vec<&[u8]> = numbers[..8].chunks(1).collect();
            writer.sell(0, 1, 10, &groups, 255);
        }
        // A stake that is no whole dollar.
        _ => drop(writer.straight(0, games, 150, &numbers[..4])),
    }
}

/// All that are due, and a guest or two who have won nothing yet.
fn claims(writer: &mut RollWriter, random: &mut Random) {
    let live = writer.house().live_tickets();
    let due: Vec<u32> = live.filter(|ticket| ticket.is_finished()).map(|t| t.number).collect();
    for ticket in due {
        writer.claim(ticket);
    }
    for _guest in 0..random.below(3) {
        let issued = u64::from(writer.house().issued());
        writer.claim(random.between(1, issued) as u32);
    }
}

#[cfg(test)]
mod tests {
    use super::*;
    use reference::command::{BALL, CANCEL, CLAIM, EXPIRE, SELL, TRANSFER};
    use reference::House;
    use rolls::Coverage;

    /// What the day is said to have.
    #[test]
    fn an_honest_day() {
        let case = case();
        let mut house = House::fresh();
        Coverage::new().count_roll(&mut house, &case.before, 100);
        let mut coverage = Coverage::new();
        coverage.count_roll(&mut house, &case.measured, 100);
        assert!((300..=400).contains(&coverage.answers(SELL, 0)));
        assert_eq!(coverage.answers(BALL, 0), 20 * GAMES as u64);
        assert!(coverage.answers(CANCEL, 0) >= 5 && coverage.answers(CLAIM, 0) >= 50);
        assert!(coverage.answers(EXPIRE, 0) == 2 && coverage.answers(TRANSFER, 0) == 2);
        for (command, code) in [(SELL, 14), (BALL, 27), (CLAIM, 19), (CLAIM, 23), (TRANSFER, 29)] {
            assert!(coverage.answers(command, code) > 0, "command {command}, code {code}");
        }
        assert!((85..=98).contains(&coverage.percent_accepted()));
    }
}
