//! "The house", and the commands' rows of "Where each thing is checked".
//!
//! Every command first goes through its row of the table from the left, and
//! touches the house only when nothing there was met. A sale with a feature has
//! the row of a Sell, with 31 after 13 and 32 after 14.

use crate::calendar::Calendar;
use crate::command::{Answer, Command, Sale};
use crate::draw::Draw;
use crate::flaw::Flaw;
use crate::jackpots::Jackpots;
use crate::price;
use crate::refusal;
use crate::settlement::{settle, Entry, Settlement};
use crate::ticket::{Closing, Kind, Standing, Terms, Ticket, TicketGame, Winnings};
use crate::ways;
use crate::Cents;

/// What an accepted command answers, number and cents, or the refusal.
type Outcome = Result<(u32, Cents), u8>;

#[derive(Clone, Debug, PartialEq, Eq)]
pub struct House {
    pub(crate) flaw: Flaw,
    pub(crate) today: u16,
    pub(crate) game: u32,
    pub(crate) balls: Vec<u8>,
    /// Every ticket ever issued, but for those behind a seasoned house.
    pub(crate) tickets: Vec<Ticket>,
    pub(crate) jackpots: Jackpots,
    /// Seeds the house has put in.
    pub(crate) seeded: Cents,
    /// Contributions the jackpots have got.
    pub(crate) contributed: Cents,
    /// Money the jackpots have paid back to the house.
    pub(crate) paid_back: Cents,
    /// Unclaimed money moved into primaries.
    pub(crate) transferred: Cents,
    /// Tickets sold and cancelled before the first one in `tickets`; see
    /// [`House::seasoned`].
    pub(crate) sales_behind: u32,
    /// How the last game went, for those who make up rolls.
    pub(crate) last_settlement: Option<Settlement>,
}

impl House {
    pub const MOST_LIVE_TICKETS: usize = 200;
    pub const LAST_TICKET: u32 = 9_999_999;
    pub const LAST_GAME: u32 = 9_999_999;
    pub const BALLS_IN_A_GAME: usize = 20;
    /// What each ticket behind a seasoned house was sold at.
    pub const SEASONED_CHARGE: Cents = 100;

    pub fn fresh() -> House {
        House::flawed(Flaw::None)
    }

    /// A fresh house with a flaw.
    pub fn flawed(flaw: Flaw) -> House {
        House {
            flaw,
            today: 0,
            game: 1,
            balls: Vec::new(),
            tickets: Vec::new(),
            jackpots: Jackpots::fresh(),
            seeded: Jackpots::FIRST_SEEDS,
            contributed: 0,
            paid_back: 0,
            transferred: 0,
            sales_behind: 0,
            last_settlement: None,
        }
    }

    /// The house that a fresh one is after `games` games drawn without a ticket
    /// and `sales` tickets sold at [`House::SEASONED_CHARGE`] for one game and
    /// cancelled at once, all on `day`.
    ///
    /// The limits of 9,999,999 are too far off to be walked to each time.
    pub fn seasoned(day: u16, games: u32, sales: u32) -> House {
        House { today: day, game: 1 + games, sales_behind: sales, ..House::fresh() }
    }

    pub fn today(&self) -> u16 {
        self.today
    }

    /// The current game.
    pub fn game(&self) -> u32 {
        self.game
    }

    pub fn balls(&self) -> &[u8] {
        &self.balls
    }

    /// Every ticket ever issued, in number order.
    pub fn tickets(&self) -> &[Ticket] {
        &self.tickets
    }

    pub fn pools(&self) -> &Jackpots {
        &self.jackpots
    }

    /// How the last drawn game was settled.
    pub fn last_settlement(&self) -> Option<&Settlement> {
        self.last_settlement.as_ref()
    }

    /// 1 to 19 balls are in.
    pub fn is_drawing(&self) -> bool {
        !self.balls.is_empty()
    }

    /// Tickets issued so far.
    pub fn issued(&self) -> u32 {
        self.sales_behind + self.tickets.len() as u32
    }

    pub fn live_tickets(&self) -> impl Iterator<Item = &Ticket> {
        self.tickets.iter().filter(|ticket| ticket.is_live())
    }

    /// Carries out or refuses one command.
    pub fn command(&mut self, command: &Command) -> Answer {
        let outcome = match command {
            Command::Open { day } => self.open(*day),
            Command::Sell(sale) => self.sell(sale),
            Command::Cancel { ticket } => self.cancel(*ticket),
            Command::Ball { number } => self.ball(*number),
            Command::Claim { ticket } => self.claim(*ticket),
            Command::Expire => self.expire(),
            Command::Transfer { jackpot, cents } => self.transfer(*jackpot, *cents),
            Command::Collect { ticket } => self.collect(*ticket),
            Command::CallOff => self.call_off(),
        };
        match outcome {
            Ok((number, cents)) => {
                Answer::accepted(number, u64::try_from(cents).expect("cents fit 8 bytes"))
            }
            Err(code) => Answer::refused(code),
        }
    }

    fn open(&mut self, day: u16) -> Outcome {
        met(day <= self.today, refusal::DAY_NOT_LATER)?;
        met(self.is_drawing(), refusal::DRAWING)?;

        self.today = day;
        Ok((u32::from(day), 0))
    }

    fn sell(&mut self, sale: &Sale) -> Outcome {
        self.check_day()?;
        let terms = check_terms(sale)?;
        let live_tickets = self.live_tickets().count();
        met(live_tickets >= Self::MOST_LIVE_TICKETS, refusal::LIVE_TICKETS)?;
        let last_game = self.next_first_game() + terms.games - 1;
        met(
            self.issued() >= Self::LAST_TICKET || last_game > Self::LAST_GAME,
            refusal::NUMBERS_USED_UP,
        )?;

        let number = self.issued() + 1;
        let charge = terms.charge();
        if self.flaw == Flaw::PoolsAtSale {
            self.contribute_at_sale(&terms);
        }
        let first_game = self.next_first_game();
        self.tickets.push(Ticket::sold(number, terms, self.today, first_game));
        Ok((number, charge))
    }

    fn cancel(&mut self, number: u32) -> Outcome {
        self.check_day()?;
        let index = self.check_ticket(number)?;
        let ticket = &self.tickets[index];
        met(ticket.sold_on < self.today, refusal::EARLIER_DAY)?;
        met(ticket.terms.is_keno_to_go() && self.has_begun(ticket), refusal::KENO_TO_GO_BEGUN)?;
        let being_drawn = self.game_being_drawn();
        met(!ticket.has_game_to_take_off(being_drawn), refusal::NO_GAME_TO_TAKE_OFF)?;

        let ticket = &mut self.tickets[index];
        let refund = ticket.take_off(being_drawn, self.flaw);
        ticket.finish_if_no_game_is_left(self.today, self.flaw == Flaw::CancelledStaysLive);
        Ok((number, refund))
    }

    fn ball(&mut self, number: u8) -> Outcome {
        self.check_day()?;
        met(!(1..=80).contains(&number), refusal::BALL_NUMBER)?;
        met(self.game > Self::LAST_GAME, refusal::GAMES_USED_UP)?;
        met(self.balls.contains(&number), refusal::BALL_ALREADY_IN)?;

        self.balls.push(number);
        let balls_in = self.balls.len();
        let won = if balls_in == Self::BALLS_IN_A_GAME { self.settle_game() } else { 0 };
        Ok((balls_in as u32, won))
    }

    fn claim(&mut self, number: u32) -> Outcome {
        self.check_day()?;
        let index = self.check_ticket(number)?;
        let ticket = &mut self.tickets[index];
        met(!ticket.is_finished(), refusal::NOT_FINISHED)?;

        // With nothing due it would be closed already.
        ticket.closing = Some(Closing::Claimed);
        Ok((number, ticket.due()))
    }

    fn expire(&mut self) -> Outcome {
        self.check_day()?;

        let has_expired = Calendar::flawed(self.flaw).expired_by(self.today);
        let is_over =
            |ticket: &&mut Ticket| ticket.is_live() && ticket.finished_on.is_some_and(&has_expired);
        let mut expired = 0;
        let mut dues = 0;
        for ticket in self.tickets.iter_mut().filter(is_over) {
            ticket.closing = Some(Closing::Expired);
            expired += 1;
            dues += ticket.due();
        }
        Ok((expired, dues))
    }

    fn transfer(&mut self, jackpot: u8, cents: u32) -> Outcome {
        self.check_day()?;
        let cents = Cents::from(cents);
        let drawing = self.is_drawing();
        let unclaimed = self.unclaimed();
        let pools = self.jackpots.for_numbers(usize::from(jackpot)).ok_or(refusal::JACKPOT)?;
        met(drawing, refusal::DRAWING)?;
        met(cents == 0 || cents > unclaimed, refusal::TRANSFER_CENTS)?;

        self.transferred += cents;
        pools.primary += cents;
        Ok((u32::from(jackpot), pools.primary))
    }

    /// One number closes as the next one is issued, so that 200 live tickets are none
    /// too many.
    fn collect(&mut self, number: u32) -> Outcome {
        self.check_day()?;
        let index = self.check_ticket(number)?;
        let due = self.tickets[index].due();
        met(self.tickets[index].is_finished(), refusal::FINISHED)?;
        met(due == 0, refusal::NOTHING_DUE_YET)?;
        met(self.issued() >= Self::LAST_TICKET, refusal::TICKETS_USED_UP)?;

        let next = self.issued() + 1;
        let being_drawn = self.game_being_drawn();
        let reissued = self.tickets[index].collect(next, self.today, being_drawn, self.flaw);
        self.tickets.push(reissued);
        Ok((next, due))
    }

    /// Drops the current game with its balls. Nobody plays in it: no jackpot gets or gives
    /// anything, and what was paid for it is due on its tickets.
    fn call_off(&mut self) -> Outcome {
        self.check_day()?;
        met(self.game > Self::LAST_GAME, refusal::GAMES_USED_UP)?;

        let game = self.game;
        if self.flaw == Flaw::CalledOffGamePools {
            self.contribute_at_call_off();
        }
        let mut due = 0;
        for ticket in self.tickets.iter_mut().filter(|ticket| ticket.is_live()) {
            due += ticket.call_off(game, self.flaw);
            ticket.finish_if_no_game_is_left(self.today, self.flaw == Flaw::CalledOffStaysLive);
        }
        if self.flaw != Flaw::CalledOffNumberStays {
            self.game += 1;
        }
        if self.flaw != Flaw::CalledOffBallsStay {
            self.balls.clear();
        }
        Ok((game, due))
    }

    /// Writes the numbers of the live tickets in rising order, 4 bytes each,
    /// high byte first, and answers how many there are. The buffer beyond them is
    /// untouched. No command: it asks for no day.
    pub fn live_list(&self, buffer: &mut [u8]) -> Result<u32, u8> {
        let mut numbers: Vec<u32> = self.live_tickets().map(|ticket| ticket.number).collect();
        met(buffer.len() < 4 * numbers.len(), refusal::SHORT_BUFFER)?;

        numbers.sort_unstable();
        if self.flaw == Flaw::FallingLiveList {
            numbers.reverse();
        }
        for (place, number) in buffer.chunks_exact_mut(4).zip(&numbers) {
            place.copy_from_slice(&number.to_be_bytes());
        }
        Ok(numbers.len() as u32)
    }

    /// Every command but Open.
    fn check_day(&self) -> Result<(), u8> {
        met(self.today == 0, refusal::DAY_IS_ZERO)
    }

    /// Where a live ticket stands in `tickets`.
    fn check_ticket(&self, number: u32) -> Result<usize, u8> {
        met(number == 0 || number > self.issued(), refusal::NEVER_ISSUED)?;
        met(number <= self.sales_behind, refusal::CLOSED)?;
        let index = (number - self.sales_behind - 1) as usize;
        met(!self.tickets[index].is_live(), refusal::CLOSED)?;
        Ok(index)
    }

    /// The first game of a ticket sold now.
    fn next_first_game(&self) -> u32 {
        if self.is_drawing() {
            self.game + 1
        } else {
            self.game
        }
    }

    fn game_being_drawn(&self) -> Option<u32> {
        self.is_drawing().then_some(self.game)
    }

    /// Whether the first ball of the ticket's first game has been drawn, or the game was
    /// called off; a reissued ticket counts as begun, however few games are left.
    fn has_begun(&self, ticket: &Ticket) -> bool {
        if !ticket.is_sold() {
            return true;
        }
        let first_game = ticket.first_game();
        first_game < self.game || first_game == self.game && self.is_drawing()
    }

    /// The twentieth ball. Answers everything won in the game.
    fn settle_game(&mut self) -> Cents {
        if self.flaw == Flaw::SettlesOneGameMore {
            self.prolong_finished_tickets();
        }
        let game = self.game;
        let players = self.players();
        let entries: Vec<Entry> =
            players.iter().map(|&index| entry(&self.tickets[index], game)).collect();
        let draw = Draw::of(&self.balls);
        let settlement = settle(&entries, &draw, &mut self.jackpots, self.flaw);

        for (&index, &winnings) in players.iter().zip(&settlement.winnings) {
            let ticket = &mut self.tickets[index];
            ticket.draw(game, winnings);
            ticket.finish_if_no_game_is_left(self.today, self.flaw == Flaw::LostStaysLive);
        }
        self.contributed += settlement.contributed;
        self.seeded += settlement.seeded;
        self.paid_back += settlement.paid_back;
        self.game += 1;
        self.balls.clear();
        let won = settlement.winnings.iter().map(Winnings::all).sum();
        self.last_settlement = Some(settlement);
        won
    }

    /// Where the tickets stand that run in the current game.
    fn players(&self) -> Vec<usize> {
        let plays = |ticket: &Ticket| ticket.is_live() && ticket.waiting_game(self.game).is_some();
        (0..self.tickets.len()).filter(|&index| plays(&self.tickets[index])).collect()
    }

    /// The flaw of settling first + games as well: a live ticket whose last
    /// game was the one before gets one more.
    fn prolong_finished_tickets(&mut self) {
        let game = self.game;
        for ticket in self.tickets.iter_mut().filter(|ticket| ticket.is_live()) {
            let last = &ticket.games[ticket.games.len() - 1];
            let just_drawn = matches!(last.standing, Standing::Drawn(_));
            if just_drawn && last.number + 1 == game {
                let standing = Standing::Waiting;
                ticket.games.push(TicketGame { number: game, paid: false, standing });
            }
        }
    }

    /// The flaw of pooling at a call-off.
    fn contribute_at_call_off(&mut self) {
        for index in self.players() {
            let Entry { terms, paid } = entry(&self.tickets[index], self.game);
            let numbers = terms.jackpot_numbers().filter(|_| paid);
            if let Some(jackpot) = numbers.and_then(|numbers| self.jackpots.for_numbers(numbers)) {
                self.contributed += jackpot.contribute(terms.way_stakes());
            }
        }
    }

    /// The flaw of pooling at the sale.
    fn contribute_at_sale(&mut self, terms: &Terms) {
        let jackpot =
            terms.jackpot_numbers().and_then(|numbers| self.jackpots.for_numbers(numbers));
        if let Some(jackpot) = jackpot {
            self.contributed += jackpot.contribute(terms.charge());
        }
    }
}

fn entry(ticket: &Ticket, game: u32) -> Entry<'_> {
    let paid = ticket.waiting_game(game).is_some_and(|line| line.paid);
    Entry { terms: &ticket.terms, paid }
}

/// The checks of a sale that need no house: 7 to 15, with 31 and 32 where it asks
/// for the feature.
fn check_terms(sale: &Sale) -> Result<Terms, u8> {
    let Sale { games, groups, types, ref marks, .. } = *sale;
    let kind = Kind::from_byte(sale.kind).ok_or(refusal::KIND)?;
    met(!(1..=price::MOST_GAMES).contains(&games), refusal::GAMES)?;
    met(!(1..=ways::MOST_GROUPS).contains(&groups), refusal::GROUPS)?;
    met(!ways::marks_in_order(marks, groups), refusal::MARKS)?;
    met(!ways::types_in_order(types, groups), refusal::TYPES)?;
    let ways = ways::ways(marks, groups, types);
    let sizes: Vec<usize> = ways.iter().map(Vec::len).collect();
    met(!kind.allows_sizes(&sizes), refusal::WAY_SIZE)?;
    met(kind == Kind::SpecialOne && ways.len() == 1, refusal::SPECIAL_ONE_WITH_ONE_WAY)?;
    let with_feature = sale.feature_stake.is_some();
    met(with_feature && (kind != Kind::Standard || ways.len() > 1), refusal::FEATURE_TICKET)?;
    let stake = Cents::from(sale.stake);
    met(!price::stake_in_order(kind, ways.len(), stake), refusal::STAKE)?;
    let feature_stake = sale.feature_stake.map_or(0, Cents::from);
    met(with_feature && !price::feature_stake_in_order(feature_stake), refusal::FEATURE_STAKE)?;
    let terms = Terms { kind, games: u32::from(games), stake, ways, feature_stake };
    met(terms.charge() > price::MOST_CHARGE, refusal::CHARGE)?;
    Ok(terms)
}

/// Refuses with the code when the case in the table is met.
fn met(case: bool, code: u8) -> Result<(), u8> {
    if case {
        Err(code)
    } else {
        Ok(())
    }
}

#[cfg(test)]
mod tests {
    use super::*;

    /// Tickets are kept as they were sold, so these are put out of order by hand.
    #[test]
    fn the_live_list_rises_however_tickets_are_kept() {
        let mut house = House::seasoned(1, 0, 0);
        for _ticket in 1..=3 {
            house.command(&Command::sell(0, 1, 100, &[&[1]], 1));
        }
        house.tickets.rotate_left(1);
        let mut buffer = [7; 14];
        assert_eq!(house.live_list(&mut buffer), Ok(3));
        assert_eq!(buffer, [0, 0, 0, 1, 0, 0, 0, 2, 0, 0, 0, 3, 7, 7]);
    }
}
