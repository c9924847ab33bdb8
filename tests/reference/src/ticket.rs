//! "The house": what a ticket is sold for, and what has become of it since.
//!
//! A ticket keeps a line for each game it was sold for; a collection moves the lines
//! of the games left to the new number. Whatever is asked about its money is added up
//! from these lines.

use crate::flaw::Flaw;
use crate::price;
use crate::Cents;

/// The kinds of "Ways".
#[derive(Clone, Copy, Debug, PartialEq, Eq)]
pub enum Kind {
    Standard,
    Jackpot,
    SpecialOne,
    SpecialTwo,
}

impl Kind {
    pub fn from_byte(byte: u8) -> Option<Kind> {
        match byte {
            0 => Some(Kind::Standard),
            1 => Some(Kind::Jackpot),
            2 => Some(Kind::SpecialOne),
            3 => Some(Kind::SpecialTwo),
            _ => None,
        }
    }

    /// Whether ways of these sizes may be sold together on a ticket of this
    /// kind.
    pub fn allows_sizes(self, sizes: &[usize]) -> bool {
        let all_in = |low, high| sizes.iter().all(|&size| low <= size && size <= high);
        match self {
            Kind::Standard | Kind::SpecialOne => all_in(1, 15),
            Kind::Jackpot => all_in(6, 6) || all_in(8, 8),
            Kind::SpecialTwo => all_in(3, 6),
        }
    }
}

/// What was sold.
#[derive(Clone, Debug, PartialEq, Eq)]
pub struct Terms {
    pub kind: Kind,
    pub games: u32,
    /// Cents per way and game.
    pub stake: Cents,
    /// The numbers of each way.
    pub ways: Vec<Vec<u8>>,
    /// Cents per game; 0 where there is no feature.
    pub feature_stake: Cents,
}

impl Terms {
    pub fn charge(&self) -> Cents {
        price::charge(self.game_price(), self.games)
    }

    /// The stakes of all ways in one game.
    pub fn way_stakes(&self) -> Cents {
        self.stake * self.ways.len() as Cents
    }

    /// What the ticket pays for a game.
    pub fn game_price(&self) -> Cents {
        self.way_stakes() + self.feature_stake
    }

    pub fn is_keno_to_go(&self) -> bool {
        self.games >= price::KENO_TO_GO
    }

    /// How many numbers the ways of a jackpot ticket have: all have as many.
    pub fn jackpot_numbers(&self) -> Option<usize> {
        (self.kind == Kind::Jackpot).then(|| self.ways[0].len())
    }

    /// The numbers that a feature is played on. A ticket with one has one way,
    /// which has all its numbers.
    pub fn feature_numbers(&self) -> Option<&[u8]> {
        (self.feature_stake > 0).then(|| self.ways[0].as_slice())
    }
}

/// What a game brought a ticket.
#[derive(Clone, Copy, Debug, Default, PartialEq, Eq)]
pub struct Winnings {
    /// Prizes of its ways, as cut.
    pub prizes: Cents,
    /// The prize of its feature.
    pub feature: Cents,
    /// Jackpot shares.
    pub shares: Cents,
}

impl Winnings {
    /// Prizes other than jackpot shares.
    pub fn prizes_and_feature(&self) -> Cents {
        self.prizes + self.feature
    }

    pub fn all(&self) -> Cents {
        self.prizes_and_feature() + self.shares
    }
}

/// What became of one game of a ticket.
#[derive(Clone, Copy, Debug, PartialEq, Eq)]
pub enum Standing {
    Waiting,
    /// Drawn, with what it brought.
    Drawn(Winnings),
    /// Taken off by a cancel.
    TakenOff,
    /// Called off, with what is due for it: what was paid for it.
    CalledOff(Cents),
}

/// One game of a ticket.
#[derive(Clone, Debug, PartialEq, Eq)]
pub struct TicketGame {
    pub number: u32,
    /// Whether it was charged for; the last games of a Keno To Go are free.
    pub paid: bool,
    pub standing: Standing,
}

impl TicketGame {
    fn waits_as(&self, number: u32) -> bool {
        self.number == number && self.standing == Standing::Waiting
    }
}

/// Why a ticket is closed.
#[derive(Clone, Copy, Debug, PartialEq, Eq)]
pub enum Closing {
    NothingDue,
    Claimed,
    Collected,
    Expired,
}

#[derive(Clone, Debug, PartialEq, Eq)]
pub struct Ticket {
    pub number: u32,
    pub terms: Terms,
    pub sold_on: u16,
    /// The number whose collection issued this one, if no sale did.
    pub reissue_of: Option<u32>,
    pub games: Vec<TicketGame>,
    /// The finishing day, once no game is left to draw.
    pub finished_on: Option<u16>,
    /// A ticket is live until it is closed.
    pub closing: Option<Closing>,
}

impl Ticket {
    pub fn sold(number: u32, terms: Terms, sold_on: u16, first_game: u32) -> Ticket {
        let paid_games = price::paid_games(terms.games);
        let games = (0..terms.games)
            .map(|index| TicketGame {
                number: first_game + index,
                paid: index < paid_games,
                standing: Standing::Waiting,
            })
            .collect();
        let (reissue_of, finished_on, closing) = (None, None, None);
        Ticket { number, terms, sold_on, reissue_of, games, finished_on, closing }
    }

    /// Issued by a sale and not by a collection.
    pub fn is_sold(&self) -> bool {
        self.reissue_of.is_none()
    }

    pub fn is_live(&self) -> bool {
        self.closing.is_none()
    }

    pub fn is_finished(&self) -> bool {
        self.games.iter().all(|game| game.standing != Standing::Waiting)
    }

    /// Of this number: a reissued ticket begins with the games that were left.
    pub fn first_game(&self) -> u32 {
        self.games[0].number
    }

    /// Whether a cancel would take this game off: undrawn, and not the one that
    /// is being drawn.
    fn comes_off(game: &TicketGame, being_drawn: Option<u32>) -> bool {
        game.standing == Standing::Waiting && being_drawn != Some(game.number)
    }

    pub fn has_game_to_take_off(&self, being_drawn: Option<u32>) -> bool {
        self.games.iter().any(|game| Self::comes_off(game, being_drawn))
    }

    /// Takes games off and answers the refund.
    pub fn take_off(&mut self, being_drawn: Option<u32>, flaw: Flaw) -> Cents {
        let before = self.refunded(flaw);
        for game in &mut self.games {
            if Self::comes_off(game, being_drawn) {
                game.standing = Standing::TakenOff;
            }
        }
        self.refunded(flaw) - before
    }

    /// Closes the number as collected and answers the ticket that has the games left
    /// under the new one: on the same terms, sold on the same day, each game paid for or
    /// free as before.
    pub fn collect(
        &mut self,
        number: u32,
        today: u16,
        being_drawn: Option<u32>,
        flaw: Flaw,
    ) -> Ticket {
        let mut reissued = Ticket { number, reissue_of: Some(self.number), ..self.clone() };
        reissued.games.retain(|game| game.standing == Standing::Waiting);
        self.games.retain(|game| game.standing != Standing::Waiting);
        self.finished_on = Some(today);
        self.closing = Some(Closing::Collected);
        self.go_wrong(&mut reissued, today, being_drawn, flaw);
        reissued
    }

    /// What a flaw makes of a collection.
    fn go_wrong(
        &mut self,
        reissued: &mut Ticket,
        today: u16,
        being_drawn: Option<u32>,
        flaw: Flaw,
    ) {
        match flaw {
            Flaw::CollectedStaysLive => self.closing = None,
            Flaw::CollectedDueIsKept => {
                let won = self.games.iter().filter(|game| game.standing != Standing::TakenOff);
                let again = won.map(|game| TicketGame { paid: false, ..game.clone() });
                reissued.games.splice(..0, again);
            }
            Flaw::ReissuedAsSoldToday => reissued.sold_on = today,
            Flaw::ReissuedFreeGamesAnew => {
                let paid_games = price::paid_games(reissued.games.len() as u32);
                for (index, game) in (0..).zip(&mut reissued.games) {
                    game.paid = index < paid_games;
                }
            }
            Flaw::ReissuedWithoutGameBeingDrawn => {
                reissued.games.retain(|game| Some(game.number) != being_drawn);
            }
            _ => {}
        }
    }

    /// The line of a game that is waiting to be drawn.
    pub fn waiting_game(&self, number: u32) -> Option<&TicketGame> {
        self.games.iter().find(|game| game.waits_as(number))
    }

    /// Notes what a waiting game has won.
    pub fn draw(&mut self, number: u32, winnings: Winnings) {
        if let Some(game) = self.games.iter_mut().find(|game| game.waits_as(number)) {
            game.standing = Standing::Drawn(winnings);
        }
    }

    /// Drops a waiting game, and answers what is due for it: all that was paid for it, and
    /// for a free game nothing. Without the game nothing happens.
    pub fn call_off(&mut self, number: u32, flaw: Flaw) -> Cents {
        let price = self.terms.game_price();
        let Some(game) = self.games.iter_mut().find(|game| game.waits_as(number)) else { return 0 };
        let is_due = game.paid || flaw == Flaw::FreeGameGivenBack;
        let due = if is_due { price } else { 0 };
        game.standing = Standing::CalledOff(due);
        due
    }

    /// If no game is left: today is the finishing day, and with nothing due the
    /// ticket closes, unless a flaw keeps it live.
    pub fn finish_if_no_game_is_left(&mut self, today: u16, stays_live: bool) {
        if self.finished_on.is_none() && self.is_finished() {
            self.finished_on = Some(today);
            if self.due() == 0 && !stays_live {
                self.closing = Some(Closing::NothingDue);
            }
        }
    }

    /// Prizes other than jackpot shares, of the games drawn so far.
    pub fn prizes(&self) -> Cents {
        self.drawn(Winnings::prizes_and_feature)
    }

    /// Jackpot shares of the games drawn so far.
    pub fn shares(&self) -> Cents {
        self.drawn(|winnings| winnings.shares)
    }

    /// Everything the ticket won so far.
    pub fn won(&self) -> Cents {
        self.drawn(Winnings::all)
    }

    /// What was paid for games called off.
    pub fn given_back(&self) -> Cents {
        let stakes_of = |game: &TicketGame| match game.standing {
            Standing::CalledOff(stakes) => stakes,
            _ => 0,
        };
        self.games.iter().map(stakes_of).sum()
    }

    /// All that this number brings: what its games won, and what was paid for those called
    /// off.
    pub fn due(&self) -> Cents {
        self.won() + self.given_back()
    }

    fn drawn(&self, figure: impl Fn(&Winnings) -> Cents) -> Cents {
        let figure_of = |game: &TicketGame| match &game.standing {
            Standing::Drawn(winnings) => figure(winnings),
            _ => 0,
        };
        self.games.iter().map(figure_of).sum()
    }

    /// What was paid for games neither drawn, cancelled nor called off.
    pub fn held(&self, flaw: Flaw) -> Cents {
        let is_held = |standing: &Standing| match standing {
            Standing::Waiting => true,
            Standing::CalledOff(_) => flaw == Flaw::CalledOffStakesStayHeld,
            _ => false,
        };
        self.terms.game_price() * self.paid_games(is_held)
    }

    /// What was paid for games taken off.
    pub fn refunded(&self, flaw: Flaw) -> Cents {
        let refund = if flaw == Flaw::FeatureStakeNotRefunded {
            self.terms.way_stakes()
        } else {
            self.terms.game_price()
        };
        refund * self.paid_games(|standing| *standing == Standing::TakenOff)
    }

    /// What was paid for games drawn.
    pub fn played(&self) -> Cents {
        self.terms.game_price() * self.paid_games(|standing| matches!(standing, Standing::Drawn(_)))
    }

    /// How many of the games that were paid for stand so.
    fn paid_games(&self, counts: impl Fn(&Standing) -> bool) -> Cents {
        self.games.iter().filter(|game| game.paid && counts(&game.standing)).count() as Cents
    }
}
