//! What became of features in the games of a set of rolls: won and missed, in paid
//! and in free games, with the game's major prizes cut and not.

use reference::roll::commands;
use reference::{Command, House, Standing};

/// Drawn games of tickets with a feature, counted.
#[derive(Clone, Debug, Default)]
pub struct Features {
    /// By whether the feature won, whether the game was paid for, and whether its
    /// major prizes were cut.
    games: [[[u64; 2]; 2]; 2],
}

impl Features {
    /// Counts the game that the house has just drawn.
    pub fn count_last_game(&mut self, house: &House) {
        let Some(settlement) = house.last_settlement() else { return };
        let drawn = house.game() - 1;
        for ticket in house.tickets().iter().filter(|ticket| ticket.terms.feature_stake > 0) {
            for game in ticket.games.iter().filter(|game| game.number == drawn) {
                if let Standing::Drawn(winnings) = game.standing {
                    let won = usize::from(winnings.feature > 0);
                    self.games[won][usize::from(game.paid)][usize::from(settlement.cut)] += 1;
                }
            }
        }
    }

    /// Runs the whole known commands of a roll on a fresh reference house, and
    /// counts every game that is drawn.
    pub fn count_roll(&mut self, roll: &[u8]) {
        let mut house = House::fresh();
        for command in commands(roll) {
            let game = house.game();
            house.command(&command);
            // A game that is called off is not drawn.
            if house.game() != game && command != Command::CallOff {
                self.count_last_game(&house);
            }
        }
    }

    pub fn games(&self, won: bool, paid: bool, cut: bool) -> u64 {
        self.games[usize::from(won)][usize::from(paid)][usize::from(cut)]
    }

    /// What was not met.
    pub fn missing(&self) -> Vec<String> {
        let mut missing = Vec::new();
        for won in [true, false] {
            for paid in [true, false] {
                for cut in [true, false] {
                    if self.games(won, paid, cut) == 0 {
                        missing.push(told(won, paid, cut));
                    }
                }
            }
        }
        missing
    }
}

fn told(won: bool, paid: bool, cut: bool) -> String {
    let won = if won { "won" } else { "missed" };
    let paid = if paid { "paid" } else { "free" };
    let cut = if cut { "cut" } else { "uncut" };
    format!("feature {won} in a {paid} game, {cut}")
}
