//! "Till": the nine figures, each worked out anew from the tickets, the pools
//! and what moved between the house and the jackpots.
//!
//! No figure is kept. The count sheet keeps them all; so when the two agree,
//! they agree on more than a shared counter.

use crate::house::House;
use crate::ticket::{Closing, Ticket};
use crate::Cents;

/// The figures' names, in the order of the document.
pub const FIGURES: [&str; 9] =
    ["taken", "seeds", "paid", "refunded", "owed", "held", "unclaimed", "pooled", "retained"];

/// Money taken plus seeds equals the other seven together.
pub fn balances(till: &[Cents; 9]) -> bool {
    till[0] + till[1] == till[2..].iter().sum()
}

impl House {
    /// Taken, seeds, paid, refunded, owed, held, unclaimed, pooled, retained.
    pub fn till(&self) -> [Cents; 9] {
        [
            self.taken(),
            self.seeded,
            self.paid(),
            self.refunded(),
            self.due_on_tickets(None),
            self.sum(|ticket| ticket.held(self.flaw)),
            self.unclaimed(),
            self.jackpots.pooled(),
            self.retained(),
        ]
    }

    fn taken(&self) -> Cents {
        let charge = |ticket: &Ticket| if ticket.is_sold() { ticket.terms.charge() } else { 0 };
        self.sum(charge) + self.charges_behind()
    }

    /// Claims and collections.
    fn paid(&self) -> Cents {
        let paid = [Closing::Claimed, Closing::Collected].map(Some);
        paid.into_iter().map(|closing| self.due_on_tickets(closing)).sum()
    }

    fn refunded(&self) -> Cents {
        self.sum(|ticket| ticket.refunded(self.flaw)) + self.charges_behind()
    }

    /// Every ticket behind a seasoned house was refunded whole.
    fn charges_behind(&self) -> Cents {
        Cents::from(self.sales_behind) * Self::SEASONED_CHARGE
    }

    /// Expired less transferred.
    pub fn unclaimed(&self) -> Cents {
        self.due_on_tickets(Some(Closing::Expired)) - self.transferred
    }

    fn retained(&self) -> Cents {
        let stakes_of_drawn_games = self.sum(Ticket::played);
        let prizes = self.sum(Ticket::prizes);
        stakes_of_drawn_games - self.contributed - prizes + self.paid_back
    }

    /// What the tickets closed in this way have won, with what was paid for games called
    /// off; `None` is for live ones.
    fn due_on_tickets(&self, closing: Option<Closing>) -> Cents {
        self.sum(|ticket| if ticket.closing == closing { ticket.due() } else { 0 })
    }

    fn sum(&self, figure: impl Fn(&Ticket) -> Cents) -> Cents {
        self.tickets.iter().map(figure).sum()
    }
}
