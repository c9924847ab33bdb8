//! What a set of rolls collects, and what becomes of the new numbers.

use crate::outcomes::Outcomes;
use reference::roll::commands;
use reference::{Closing, Command, House, Kind, Standing, Ticket};

/// Each is to be met. The first are of the collection, the others of the number that it
/// issued.
const OUTCOMES: [&str; 21] = [
    "between games",
    "with one ball in",
    "with 19 balls in",
    "with 200 live tickets",
    "on a later day than the sale",
    "of a way ticket",
    "of a jackpot ticket",
    "of a ticket with a feature",
    "of a reissued ticket",
    "of a ticket with games taken off",
    "with one game left",
    "with free and paid games left",
    "with only free games left",
    "of a jackpot share",
    "then claimed",
    "then collected",
    "then cancelled and claimed",
    "then cancelled with nothing due",
    "then refused a cancel as a Keno To Go",
    "then lost",
    "then expired",
];

/// Accepted collections, counted.
#[derive(Clone, Debug)]
pub struct Collections {
    pub outcomes: Outcomes,
}

impl Default for Collections {
    fn default() -> Collections {
        Collections { outcomes: Outcomes::of(&OUTCOMES) }
    }
}

impl Collections {
    /// Runs the whole known commands of a roll on a fresh reference house.
    pub fn count_roll(&mut self, roll: &[u8]) {
        let mut house = House::fresh();
        for command in commands(roll) {
            self.count_command(&house, &command);
            house.command(&command);
        }
        for ticket in house.tickets().iter().filter(|ticket| !ticket.is_sold()) {
            self.count_reissued(ticket);
        }
    }

    /// Before it is given.
    fn count_command(&mut self, house: &House, command: &Command) {
        match command {
            Command::Collect { ticket } => {
                let live = house.live_tickets().find(|live| live.number == *ticket);
                if let Some(ticket) = live.filter(|live| !live.is_finished() && live.due() > 0) {
                    self.count_collection(house, ticket);
                }
            }
            Command::Cancel { ticket } => {
                let live = house.live_tickets().find(|live| live.number == *ticket);
                let is_begun = |ticket: &&Ticket| {
                    let same_day = ticket.sold_on == house.today();
                    !ticket.is_sold() && ticket.terms.is_keno_to_go() && same_day
                };
                self.meet(
                    "then refused a cancel as a Keno To Go",
                    live.is_some_and(|t| is_begun(&t)),
                );
            }
            _ => {}
        }
    }

    fn count_collection(&mut self, house: &House, ticket: &Ticket) {
        let balls_in = house.balls().len();
        let left: Vec<bool> = ticket.games.iter().filter_map(paid_and_left).collect();
        let (paid, free) = (left.contains(&true), left.contains(&false));
        let terms = &ticket.terms;
        let taken_off = ticket.games.iter().any(|game| game.standing == Standing::TakenOff);
        self.meet("between games", balls_in == 0);
        self.meet("with one ball in", balls_in == 1);
        self.meet("with 19 balls in", balls_in == 19);
        self.meet("with 200 live tickets", house.live_tickets().count() == 200);
        self.meet("on a later day than the sale", ticket.sold_on < house.today());
        self.meet("of a way ticket", terms.ways.len() > 1);
        self.meet("of a jackpot ticket", terms.kind == Kind::Jackpot);
        self.meet("of a ticket with a feature", terms.feature_stake > 0);
        self.meet("of a reissued ticket", !ticket.is_sold());
        self.meet("of a ticket with games taken off", taken_off);
        self.meet("with one game left", left.len() == 1);
        self.meet("with free and paid games left", free && paid);
        self.meet("with only free games left", free && !paid);
        self.meet("of a jackpot share", ticket.shares() > 0);
    }

    /// What has become of a number in the end.
    fn count_reissued(&mut self, ticket: &Ticket) {
        let cancelled = ticket.games.iter().any(|game| game.standing == Standing::TakenOff);
        let nothing_due = ticket.closing == Some(Closing::NothingDue);
        let claimed = ticket.closing == Some(Closing::Claimed);
        self.meet("then claimed", claimed && !cancelled);
        self.meet("then collected", ticket.closing == Some(Closing::Collected));
        self.meet("then cancelled and claimed", claimed && cancelled);
        self.meet("then cancelled with nothing due", nothing_due && cancelled);
        self.meet("then lost", nothing_due && !cancelled);
        self.meet("then expired", ticket.closing == Some(Closing::Expired));
    }

    fn meet(&mut self, outcome: &'static str, is_met: bool) {
        self.outcomes.meet(outcome, is_met);
    }
}

/// Whether a game that is left was paid for.
fn paid_and_left(game: &reference::TicketGame) -> Option<bool> {
    (game.standing == Standing::Waiting).then_some(game.paid)
}
