//! What the games are that a set of rolls calls off, whose they are, and what becomes of
//! those tickets.

use crate::outcomes::Outcomes;
use reference::roll::commands;
use reference::{Closing, Command, House, Kind, Standing, Ticket, TicketGame};

/// Each is to be met. The first are of the game, the next of a ticket that runs in it, the
/// others of a ticket that had a game called off.
const OUTCOMES: [&str; 31] = [
    "with no ball in",
    "with one ball in",
    "with 2 to 18 balls in",
    "with 19 balls in",
    "right after another",
    "without a ticket in it",
    "with 200 live tickets",
    "with a ticket sold while drawing",
    "of a way ticket",
    "of a jackpot ticket",
    "of a ticket with a feature",
    "of a reissued ticket",
    "of a ticket that has won",
    "of a ticket with games taken off",
    "of a Keno To Go in its first game",
    "of a paid game that is not the last",
    "of a free game that is not the last",
    "of a last game that is paid",
    "of a last game that is free, with a due before",
    "of a last game that is free, with nothing due",
    "then refused a cancel as a Keno To Go",
    "then refused a cancel with no game left",
    "then cancelled",
    "then cancelled, a Keno To Go sold while drawing",
    "then collected without a win",
    "then collected with a win",
    "then claimed without a win",
    "then claimed with a win",
    "then claimed, of several games",
    "then expired",
    "then closed with nothing due",
];

/// Games called off, counted.
#[derive(Clone, Debug)]
pub struct CallsOff {
    pub outcomes: Outcomes,
    /// Live tickets that were to begin in the game after the one that was called off last.
    begin_next: Vec<u32>,
}

impl Default for CallsOff {
    fn default() -> CallsOff {
        CallsOff { outcomes: Outcomes::of(&OUTCOMES), begin_next: Vec::new() }
    }
}

impl CallsOff {
    /// Runs the whole known commands of a roll on a fresh reference house.
    pub fn count_roll(&mut self, roll: &[u8]) {
        let mut house = House::fresh();
        let mut last = None;
        self.begin_next.clear();
        for command in commands(roll) {
            let is_called_off = command == Command::CallOff && house.today() > 0;
            if is_called_off {
                self.meet("right after another", last == Some(Command::CallOff));
                self.count_game(&house);
            }
            if let Command::Cancel { ticket } = command {
                let live = house.live_tickets().find(|live| live.number == ticket).cloned();
                let code = house.command(&command).code;
                live.into_iter().for_each(|ticket| self.count_cancel(&house, &ticket, code));
            } else {
                house.command(&command);
            }
            last = Some(command);
        }
        let tickets = house.tickets().iter();
        tickets.filter(|ticket| ticket.games.iter().any(is_off)).for_each(|t| self.count_end(t));
    }

    /// Before it is called off.
    fn count_game(&mut self, house: &House) {
        let balls_in = house.balls().len();
        let running: Vec<(&Ticket, &TicketGame)> = house
            .live_tickets()
            .filter_map(|ticket| Some((ticket, ticket.waiting_game(house.game())?)))
            .collect();
        let begins_next = |ticket: &&Ticket| ticket.first_game() == house.game() + 1;
        let begin_next = house.live_tickets().filter(begins_next);
        self.begin_next = begin_next.map(|ticket| ticket.number).collect();
        self.meet("with no ball in", balls_in == 0);
        self.meet("with one ball in", balls_in == 1);
        self.meet("with 2 to 18 balls in", (2..=18).contains(&balls_in));
        self.meet("with 19 balls in", balls_in == 19);
        self.meet("without a ticket in it", running.is_empty());
        self.meet("with 200 live tickets", house.live_tickets().count() == 200);
        self.meet("with a ticket sold while drawing", !self.begin_next.is_empty());
        for (ticket, game) in running {
            self.count_ticket(ticket, game);
        }
    }

    /// Of a ticket that runs in the game.
    fn count_ticket(&mut self, ticket: &Ticket, game: &TicketGame) {
        let terms = &ticket.terms;
        let left = ticket.games.iter().filter(|game| game.standing == Standing::Waiting);
        let is_last = left.count() == 1;
        let taken_off = ticket.games.iter().any(|game| game.standing == Standing::TakenOff);
        let is_first = ticket.is_sold() && ticket.first_game() == game.number;
        let is_free = is_last && !game.paid;
        self.meet("of a way ticket", terms.ways.len() > 1);
        self.meet("of a jackpot ticket", terms.kind == Kind::Jackpot);
        self.meet("of a ticket with a feature", terms.feature_stake > 0);
        self.meet("of a reissued ticket", !ticket.is_sold());
        self.meet("of a ticket that has won", ticket.won() > 0);
        self.meet("of a ticket with games taken off", taken_off);
        self.meet("of a Keno To Go in its first game", terms.is_keno_to_go() && is_first);
        self.meet("of a paid game that is not the last", game.paid && !is_last);
        self.meet("of a free game that is not the last", !game.paid && !is_last);
        self.meet("of a last game that is paid", is_last && game.paid);
        self.meet("of a last game that is free, with a due before", is_free && ticket.due() > 0);
        self.meet("of a last game that is free, with nothing due", is_free && ticket.due() == 0);
    }

    /// Of a cancel that was answered with the code, and the ticket before it.
    fn count_cancel(&mut self, house: &House, ticket: &Ticket, code: u8) {
        let off = |game: &TicketGame| is_off(game) && ticket.is_sold();
        let first_is_off = ticket.games.first().is_some_and(off);
        let any_is_off = ticket.games.iter().any(is_off);
        let to_go = ticket.terms.is_keno_to_go();
        let waited =
            self.begin_next.contains(&ticket.number) && ticket.first_game() == house.game();
        self.meet("then refused a cancel as a Keno To Go", to_go && first_is_off && code == 21);
        self.meet("then refused a cancel with no game left", any_is_off && code == 22);
        self.meet("then cancelled", any_is_off && code == 0);
        self.meet("then cancelled, a Keno To Go sold while drawing", to_go && waited && code == 0);
    }

    /// What has become of a ticket in the end.
    fn count_end(&mut self, ticket: &Ticket) {
        let closed = |closing| ticket.closing == Some(closing) && ticket.given_back() > 0;
        let (won, several) =
            (ticket.won() > 0, ticket.games.iter().filter(|g| is_off(g)).count() > 1);
        self.meet("then collected without a win", closed(Closing::Collected) && !won);
        self.meet("then collected with a win", closed(Closing::Collected) && won);
        self.meet("then claimed without a win", closed(Closing::Claimed) && !won);
        self.meet("then claimed with a win", closed(Closing::Claimed) && won);
        self.meet("then claimed, of several games", closed(Closing::Claimed) && several);
        self.meet("then expired", closed(Closing::Expired));
        self.meet("then closed with nothing due", ticket.closing == Some(Closing::NothingDue));
    }

    fn meet(&mut self, outcome: &'static str, is_met: bool) {
        self.outcomes.meet(outcome, is_met);
    }
}

fn is_off(game: &TicketGame) -> bool {
    matches!(game.standing, Standing::CalledOff(_))
}
