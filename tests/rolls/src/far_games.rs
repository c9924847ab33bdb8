//! Up to game 9,999,999: "last game past 9,999,999" (17) and "current game past
//! 9,999,999" (26), by a ball and by a call-off, whether that game was drawn or called off.
//!
//! Nothing shorter than two hundred million balls leads there, so this is no
//! roll but one roll after another, on one house, most of them the same.

use crate::writer::RollWriter;
use reference::House;

/// Rolls to be read one after another from a fresh house.
pub struct FarGames {
    first: Vec<u8>,
    many_games: Vec<u8>,
    times: usize,
    remaining_games: Vec<u8>,
    last: Vec<u8>,
    last_called_off: Vec<u8>,
}

/// The game in which a ticket of 100 games ends with the last game there is.
const LAST_HUNDRED: u32 = House::LAST_GAME - 99;

/// Games on each of the repeated rolls: 40 bytes each, and no more than the
/// program reads.
const GAMES_ON_A_ROLL: u32 = 1_600;

impl FarGames {
    pub fn new() -> FarGames {
        let games = LAST_HUNDRED - 1;
        FarGames {
            first: vec![1, 0, 1],
            many_games: empty_games(GAMES_ON_A_ROLL),
            times: (games / GAMES_ON_A_ROLL) as usize,
            remaining_games: empty_games(games % GAMES_ON_A_ROLL),
            last: last_games(LastGame::Drawn),
            last_called_off: last_games(LastGame::CalledOff),
        }
    }

    /// The rolls in their order, more than six thousand.
    pub fn rolls(&self) -> impl Iterator<Item = &[u8]> {
        let many = std::iter::repeat_n(&self.many_games, self.times);
        std::iter::once(&self.first)
            .chain(many)
            .chain([&self.remaining_games, &self.last])
            .map(Vec::as_slice)
    }

    /// The last roll by itself, for a house that is in that game already: see
    /// [`House::seasoned`].
    pub fn last_roll(&self) -> &[u8] {
        &self.last
    }

    /// The same, but that game 9,999,999 is called off and not drawn.
    pub fn last_roll_called_off(&self) -> &[u8] {
        &self.last_called_off
    }

    /// Games drawn before the last roll.
    pub fn games_before_the_last_roll(&self) -> u32 {
        LAST_HUNDRED - 1
    }
}

impl Default for FarGames {
    fn default() -> FarGames {
        FarGames::new()
    }
}

/// Balls 1 to 20, so many times.
fn empty_games(games: u32) -> Vec<u8> {
    let one_game: Vec<u8> = (1..=20).flat_map(|number| [4, number]).collect();
    one_game.repeat(games as usize)
}

/// How the games end.
enum LastGame {
    Drawn,
    CalledOff,
}

/// The last hundred games, with sales that just end in time and sales that do
/// not, one game called off among them, and what is left to do after the last game.
fn last_games(last_game: LastGame) -> Vec<u8> {
    let mut writer = RollWriter::on(House::seasoned(1, LAST_HUNDRED - 1, 0));
    let balls: Vec<u8> = (1..=20).collect();
    writer.straight(0, 100, 100, &[1]);
    writer.straight(1, 100, 100, &[1, 2, 3, 4, 5, 6]);
    writer.lucky_last(100, 100, 100, &[20]);
    writer.ball(80);
    for games in [100, 99] {
        writer.straight(0, games, 100, &[1]);
        writer.lucky_last(games, 100, 300, &[19, 20]);
    }
    writer.draw_from(&balls);
    for games in [100, 99, 98, 50] {
        writer.straight(0, games, 100, &[80]);
        writer.lucky_last(games, 100, 200, &[80]);
    }
    writer.call_off();
    for games in [98, 97] {
        writer.straight(0, games, 100, &[1]);
    }
    while writer.house().game() < House::LAST_GAME {
        writer.balls(&balls);
    }
    for games in [2, 1] {
        writer.straight(1, games, 100, &[1, 2, 3, 4, 5, 6, 7, 8]);
        writer.lucky_last(games, 100, 100, &[19]);
    }
    writer.ball(80);
    writer.straight(0, 1, 100, &[1]);
    writer.lucky_last(1, 100, 100, &[1]);
    match last_game {
        LastGame::Drawn => writer.draw_from(&balls),
        LastGame::CalledOff => drop(writer.call_off()),
    }
    past_the_last_game(&mut writer);
    writer.finish()
}

fn past_the_last_game(writer: &mut RollWriter) {
    writer.call_off();
    for number in [0, 81, 1, 80] {
        writer.ball(number);
    }
    writer.call_off();
    for games in [1, 0] {
        writer.straight(0, games, 100, &[1]);
        writer.lucky_last(games, 100, 100, &[1]);
    }
    writer.cancel(1);
    writer.claim_last(5);
    writer.open(400);
    writer.expire();
    writer.transfer(6, 1);
    writer.claim(1);
}
