//! "The count sheet": fed each command and the code it was answered with, and
//! nothing else from the house.
//!
//! It checks no rule. It believes the code, moves the money as its list says,
//! and answers each accepted command from what it holds itself.

use crate::calendar::Calendar;
use crate::command::{Command, Sale};
use crate::draw::Draw;
use crate::flaw::Flaw;
use crate::house::House;
use crate::jackpots::Jackpots;
use crate::price::paid_games;
use crate::settlement::{settle, Entry};
use crate::ticket::{Kind, Terms};
use crate::ways::ways;
use crate::Cents;

/// A line for an accepted sale, or for a collection: it has the operands and the
/// first game of the sale then. A feature stake stands among the terms.
#[derive(Clone, Debug)]
struct Line {
    terms: Terms,
    first_game: u32,
    games_left: Vec<u32>,
    due: Cents,
    finishing_day: Option<u16>,
}

impl Line {
    /// What was paid for one of its games; the last of 50 or more are free, and
    /// then the feature is too.
    fn paid_stakes_of(&self, game: u32) -> Cents {
        if game < self.first_game + paid_games(self.terms.games) {
            self.terms.game_price()
        } else {
            0
        }
    }

    /// A game that is left no more.
    fn game_went(&mut self, game: u32, today: u16) {
        self.games_left.retain(|&left| left != game);
        self.games_went(today);
    }

    /// A line gets today as its finishing day when its last game goes.
    fn games_went(&mut self, today: u16) {
        if self.games_left.is_empty() {
            self.finishing_day = Some(today);
        }
    }
}

#[derive(Clone, Debug, Default, PartialEq, Eq)]
struct Figures {
    taken: Cents,
    seeds: Cents,
    paid: Cents,
    refunded: Cents,
    owed: Cents,
    held: Cents,
    unclaimed: Cents,
    pooled: Cents,
    retained: Cents,
}

#[derive(Clone, Debug)]
pub struct CountSheet {
    today: u16,
    game: u32,
    balls: Vec<u8>,
    jackpots: Jackpots,
    figures: Figures,
    lines: Vec<Line>,
}

impl CountSheet {
    pub fn fresh() -> CountSheet {
        let seeds = Jackpots::FIRST_SEEDS;
        CountSheet {
            today: 0,
            game: 1,
            balls: Vec::new(),
            jackpots: Jackpots::fresh(),
            figures: Figures { seeds, pooled: seeds, ..Figures::default() },
            lines: Vec::new(),
        }
    }

    /// The nine figures, in the order of the till.
    pub fn figures(&self) -> [Cents; 9] {
        let f = &self.figures;
        [f.taken, f.seeds, f.paid, f.refunded, f.owed, f.held, f.unclaimed, f.pooled, f.retained]
    }

    pub fn pools(&self) -> &Jackpots {
        &self.jackpots
    }

    /// Feeds a command with its answer's code. Answers the sheet's own number
    /// and cents, zeros for a refused one. On a code other than 0 nothing
    /// changes.
    pub fn feed(&mut self, command: &Command, code: u8) -> (u32, Cents) {
        if code != 0 {
            return (0, 0);
        }
        match command {
            Command::Open { day } => self.open(*day),
            Command::Sell(sale) => self.sell(sale),
            Command::Cancel { ticket } => self.cancel(*ticket),
            Command::Ball { number } => self.ball(*number),
            Command::Claim { ticket } => self.claim(*ticket),
            Command::Expire => self.expire(),
            Command::Transfer { jackpot, cents } => self.transfer(*jackpot, Cents::from(*cents)),
            Command::Collect { ticket } => self.collect(*ticket),
            Command::CallOff => self.call_off(),
        }
    }

    fn line(&mut self, ticket: u32) -> &mut Line {
        &mut self.lines[ticket as usize - 1]
    }

    fn open(&mut self, day: u16) -> (u32, Cents) {
        self.today = day;
        (u32::from(day), 0)
    }

    fn sell(&mut self, sale: &Sale) -> (u32, Cents) {
        let terms = Terms {
            kind: Kind::from_byte(sale.kind).expect("an accepted kind"),
            games: u32::from(sale.games),
            stake: Cents::from(sale.stake),
            ways: ways(&sale.marks, sale.groups, sale.types),
            feature_stake: sale.feature_stake.map_or(0, Cents::from),
        };
        let first_game = if self.balls.is_empty() { self.game } else { self.game + 1 };
        let charge = terms.charge();
        self.figures.taken += charge;
        self.figures.held += charge;
        self.lines.push(Line {
            games_left: (first_game..first_game + terms.games).collect(),
            terms,
            first_game,
            due: 0,
            finishing_day: None,
        });
        (self.lines.len() as u32, charge)
    }

    fn cancel(&mut self, ticket: u32) -> (u32, Cents) {
        let (today, game, drawing) = (self.today, self.game, !self.balls.is_empty());
        let line = self.line(ticket);
        let stays = |&left: &u32| drawing && left == game;
        let refund: Cents = line
            .games_left
            .iter()
            .filter(|left| !stays(left))
            .map(|&left| line.paid_stakes_of(left))
            .sum();
        line.games_left.retain(stays);
        line.games_went(today);
        self.figures.held -= refund;
        self.figures.refunded += refund;
        (ticket, refund)
    }

    fn ball(&mut self, number: u8) -> (u32, Cents) {
        self.balls.push(number);
        let balls_in = self.balls.len();
        let won = if balls_in == House::BALLS_IN_A_GAME { self.settle_game() } else { 0 };
        (balls_in as u32, won)
    }

    fn settle_game(&mut self) -> Cents {
        let game = self.game;
        let playing = |line: &&Line| line.games_left.contains(&game);
        let entries: Vec<Entry> = self
            .lines
            .iter()
            .filter(playing)
            .map(|line| Entry { terms: &line.terms, paid: line.paid_stakes_of(game) > 0 })
            .collect();
        let draw = Draw::of(&self.balls);
        let settlement = settle(&entries, &draw, &mut self.jackpots, Flaw::None);

        let mut all_won = 0;
        let lines = self.lines.iter_mut().filter(|line| line.games_left.contains(&game));
        for (line, winnings) in lines.zip(&settlement.winnings) {
            let won = winnings.prizes + winnings.feature + winnings.shares;
            let stakes = line.paid_stakes_of(game);
            line.due += won;
            line.game_went(game, self.today);
            self.figures.owed += won;
            self.figures.held -= stakes;
            self.figures.retained += stakes - winnings.prizes - winnings.feature;
            self.figures.pooled -= winnings.shares;
            all_won += won;
        }
        self.figures.seeds += settlement.seeded;
        self.figures.pooled += settlement.contributed + settlement.seeded - settlement.paid_back;
        self.figures.retained += settlement.paid_back - settlement.contributed;
        self.next_game();
        all_won
    }

    /// The next game is current, without balls.
    fn next_game(&mut self) {
        self.game += 1;
        self.balls.clear();
    }

    /// Each line with the current game left is due its paid stake for it, which goes from
    /// held to owed.
    fn call_off(&mut self) -> (u32, Cents) {
        let (today, game) = (self.today, self.game);
        let mut dues = 0;
        for line in self.lines.iter_mut().filter(|line| line.games_left.contains(&game)) {
            let stakes = line.paid_stakes_of(game);
            line.due += stakes;
            line.game_went(game, today);
            dues += stakes;
        }
        self.figures.held -= dues;
        self.figures.owed += dues;
        self.next_game();
        (game, dues)
    }

    fn claim(&mut self, ticket: u32) -> (u32, Cents) {
        let due = std::mem::take(&mut self.line(ticket).due);
        self.figures.owed -= due;
        self.figures.paid += due;
        (ticket, due)
    }

    /// The due moves from owed to paid, and the games left to a new line.
    fn collect(&mut self, ticket: u32) -> (u32, Cents) {
        let today = self.today;
        let line = self.line(ticket);
        let due = std::mem::take(&mut line.due);
        let games_left = std::mem::take(&mut line.games_left);
        line.games_went(today);
        let (terms, first_game) = (line.terms.clone(), line.first_game);
        self.lines.push(Line { terms, first_game, games_left, due: 0, finishing_day: None });
        self.figures.owed -= due;
        self.figures.paid += due;
        (self.lines.len() as u32, due)
    }

    fn expire(&mut self) -> (u32, Cents) {
        let has_expired = Calendar::GREGORIAN.expired_by(self.today);
        let mut moved = 0;
        let mut dues = 0;
        for line in &mut self.lines {
            if line.due > 0 && line.finishing_day.is_some_and(&has_expired) {
                dues += std::mem::take(&mut line.due);
                moved += 1;
            }
        }
        self.figures.owed -= dues;
        self.figures.unclaimed += dues;
        (moved, dues)
    }

    fn transfer(&mut self, jackpot: u8, cents: Cents) -> (u32, Cents) {
        let pools = self.jackpots.for_numbers(usize::from(jackpot)).expect("an accepted jackpot");
        pools.primary += cents;
        self.figures.unclaimed -= cents;
        self.figures.pooled += cents;
        (u32::from(jackpot), pools.primary)
    }
}
