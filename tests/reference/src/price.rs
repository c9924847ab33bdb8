//! "Price": stakes, paid games and the charge; and the stake of a feature.

use crate::ticket::Kind;
use crate::Cents;

/// The most games a ticket can run.
pub const MOST_GAMES: u8 = 100;

/// From this many games on, a ticket is a Keno To Go.
pub const KENO_TO_GO: u32 = 50;

/// The dearest ticket.
pub const MOST_CHARGE: Cents = 999_900;

const DOLLAR: Cents = 100;

/// Whether the stake, per way and game, may be played on so many ways.
pub fn stake_in_order(kind: Kind, ways: usize, stake: Cents) -> bool {
    if ways <= 3 || kind == Kind::Jackpot {
        return stake >= DOLLAR && stake % DOLLAR == 0;
    }
    let step = if stake <= DOLLAR { 10 } else { DOLLAR };
    stake >= least_way_stake(ways) && stake % step == 0
}

/// Whether the feature may be played at this stake, per game.
pub fn feature_stake_in_order(feature_stake: Cents) -> bool {
    feature_stake > 0 && feature_stake % DOLLAR == 0
}

/// The least stake of a way ticket with four ways or more (rule 6.2 (c)).
fn least_way_stake(ways: usize) -> Cents {
    if ways >= 50 {
        10
    } else if ways >= 20 {
        20
    } else {
        50
    }
}

/// How many of the games are charged for; the others, the last, are free.
pub fn paid_games(games: u32) -> u32 {
    match games {
        0..=49 => games,
        50..=99 => games - 1,
        _ => games - 2,
    }
}

/// What a ticket costs that pays so much for a game.
pub fn charge(game_price: Cents, games: u32) -> Cents {
    game_price * Cents::from(paid_games(games))
}
