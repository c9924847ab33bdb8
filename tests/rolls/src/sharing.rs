//! Who shares a jackpot in a game that is about to be drawn, and how many cents are
//! odd: for those who make up rolls, and for those who count what rolls reach.

use reference::command::length;
use reference::{Cents, Command, House};

/// A ticket with winning ways.
#[derive(Clone, Debug, PartialEq, Eq)]
pub struct Winner {
    pub ticket: u32,
    /// Cents per way.
    pub stake: u64,
    /// How many of its ways win.
    pub ways: u64,
    /// Whether the game is one that it was charged for.
    pub paid: bool,
}

/// How a jackpot is going to be shared.
#[derive(Clone, Debug, PartialEq, Eq)]
pub struct Sharing {
    /// 6 or 8.
    pub jackpot: u8,
    /// In the order of their numbers.
    pub winners: Vec<Winner>,
    /// What they share: the primary with the game's contributions.
    pub primary: u64,
}

impl Sharing {
    /// In the house's current game, when these are its twenty balls.
    pub fn of(house: &House, balls: &[u8], jackpot: u8) -> Sharing {
        let mut pools =
            if jackpot == 6 { &house.pools().six } else { &house.pools().eight }.clone();
        let numbers = Some(usize::from(jackpot));
        let mut winners = Vec::new();
        for ticket in house.live_tickets() {
            let terms = &ticket.terms;
            let Some(game) = ticket.waiting_game(house.game()) else { continue };
            if terms.jackpot_numbers() != numbers {
                continue;
            }
            if game.paid {
                pools.contribute(terms.way_stakes());
            }
            let wins = |way: &&Vec<u8>| way.iter().all(|number| balls.contains(number));
            let ways = terms.ways.iter().filter(wins).count() as u64;
            let stake = whole(terms.stake);
            winners.push(Winner { ticket: ticket.number, stake, ways, paid: game.paid });
        }
        winners.retain(|winner| winner.ways > 0);
        Sharing { jackpot, winners, primary: whole(pools.primary) }
    }

    /// Winning ways.
    pub fn ways(&self) -> u64 {
        self.winners.iter().map(|winner| winner.ways).sum()
    }

    /// Winning ways of the largest stake.
    pub fn largest_ways(&self) -> u64 {
        let largest = self.winners.iter().map(|winner| winner.stake).max();
        let with_it = self.winners.iter().filter(|winner| Some(winner.stake) == largest);
        with_it.map(|winner| winner.ways).sum()
    }

    pub fn odd_cents(&self) -> u64 {
        self.odd_cents_of(self.primary)
    }

    /// The parts of a cent that rounding takes from the shares of this primary; none
    /// where nobody wins.
    fn odd_cents_of(&self, primary: u64) -> u64 {
        let all = self.all_stakes();
        let parts = self.winners.iter().map(|winner| winner.ways * (primary * winner.stake % all));
        parts.sum::<u64>().checked_div(all).unwrap_or(0)
    }

    fn all_stakes(&self) -> u64 {
        self.winners.iter().map(|winner| winner.ways * winner.stake).sum()
    }

    /// How many cents have to join the primary so that so many are odd, or as many
    /// below that as can be.
    pub fn cents_short_of(&self, odd_cents: u64) -> u64 {
        // Stakes are whole dollars, so that it all comes again after so many cents.
        let period = self.all_stakes() / 100;
        let short_of = |odd_cents: u64| {
            (0..period).find(|cents| self.odd_cents_of(self.primary + cents) == odd_cents)
        };
        (0..=odd_cents).rev().find_map(short_of).unwrap_or(0)
    }
}

fn whole(cents: Cents) -> u64 {
    u64::try_from(cents).expect("cents fit 8 bytes")
}

/// Runs the whole known commands of a roll on a fresh reference house. Shows the
/// house before each game's last ball and how the jackpots of six and of eight are
/// going to be shared.
pub fn each_game(roll: &[u8], mut show: impl FnMut(&House, [Sharing; 2])) {
    let mut house = House::fresh();
    let mut unread = roll;
    while let Some(bytes) = unread.first().and_then(|&byte| unread.get(..length(byte)?)) {
        let command = Command::decode(bytes);
        if let Some(balls) = twenty_balls(&house, &command) {
            show(&house, [6, 8].map(|jackpot| Sharing::of(&house, &balls, jackpot)));
        }
        house.command(&command);
        unread = &unread[bytes.len()..];
    }
}

/// The current game's balls, if the command enters the last of them.
fn twenty_balls(house: &House, command: &Command) -> Option<Vec<u8>> {
    let Command::Ball { number } = command else { return None };
    let balls = [house.balls(), &[*number]].concat();
    let is_last = balls.len() == House::BALLS_IN_A_GAME;
    (is_last && house.clone().command(command).code == 0).then_some(balls)
}
