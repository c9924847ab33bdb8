//! "Jackpots": the pools of each, and what goes into and out of them.

use crate::flaw::Flaw;
use crate::prizes::CAP;
use crate::Cents;
use std::cmp::Reverse;

/// One jackpot: three pools and what it owes the house for its seeds.
#[derive(Clone, Debug, PartialEq, Eq)]
pub struct Jackpot {
    pub guarantee: Cents,
    pub primary: Cents,
    pub secondary: Cents,
    pub reimbursement: Cents,
    pub debt: Cents,
}

impl Jackpot {
    /// The primary stands at its guarantee, all of it seed.
    fn fresh(guarantee: Cents) -> Jackpot {
        Jackpot { guarantee, primary: guarantee, secondary: 0, reimbursement: 0, debt: guarantee }
    }

    /// The three pools together.
    pub fn pooled(&self) -> Cents {
        self.primary + self.secondary + self.reimbursement
    }

    /// 25 cents of each dollar: 15 to the primary, 5 and 5. Answers how much
    /// went in. Stakes of jackpot tickets are whole dollars.
    pub fn contribute(&mut self, paid_stakes: Cents) -> Cents {
        let dollars = paid_stakes / 100;
        self.primary += 15 * dollars;
        self.secondary += 5 * dollars;
        self.reimbursement += 5 * dollars;
        25 * dollars
    }

    /// After a winner: the secondary moves into the primary, and the house adds
    /// a seed up to the guarantee, which joins the debt. Answers the seed.
    pub fn start_anew(&mut self) -> Cents {
        self.primary += self.secondary;
        self.secondary = 0;
        let seed = (self.guarantee - self.primary).max(0);
        self.primary += seed;
        self.debt += seed;
        seed
    }

    /// Reimbursement pays the house as much of the debt as it can. Answers how
    /// much that is.
    pub fn pay_back(&mut self) -> Cents {
        let paid_back = self.reimbursement.min(self.debt);
        self.reimbursement -= paid_back;
        self.debt -= paid_back;
        paid_back
    }
}

/// The jackpots for 6 and for 8 numbers.
#[derive(Clone, Debug, PartialEq, Eq)]
pub struct Jackpots {
    pub six: Jackpot,
    pub eight: Jackpot,
}

impl Jackpots {
    pub const GUARANTEE_OF_SIX: Cents = 100_000;
    pub const GUARANTEE_OF_EIGHT: Cents = 1_250_000;
    /// What the house puts in before the first game.
    pub const FIRST_SEEDS: Cents = 1_350_000;

    pub fn fresh() -> Jackpots {
        Jackpots {
            six: Jackpot::fresh(Self::GUARANTEE_OF_SIX),
            eight: Jackpot::fresh(Self::GUARANTEE_OF_EIGHT),
        }
    }

    /// The jackpot for 6 or for 8 numbers; there is no other.
    pub fn for_numbers(&mut self, numbers: usize) -> Option<&mut Jackpot> {
        match numbers {
            6 => Some(&mut self.six),
            8 => Some(&mut self.eight),
            _ => None,
        }
    }

    /// The six pools together.
    pub fn pooled(&self) -> Cents {
        self.six.pooled() + self.eight.pooled()
    }
}

/// Shares a primary among winning ways by their stakes, given in ticket order:
/// rounded down, then the odd cents one to each, larger stakes first.
pub fn shares(primary: Cents, stakes: &[Cents], flaw: Flaw) -> Vec<Cents> {
    let all_stakes: Cents = stakes.iter().sum();
    let mut shares: Vec<Cents> = stakes.iter().map(|stake| primary * stake / all_stakes).collect();
    let odd_cents = primary - shares.iter().sum::<Cents>();
    give_odd_cents(&mut shares, odd_cents as usize, stakes, flaw);
    if flaw == Flaw::CappedJackpot {
        shares.iter_mut().for_each(|share| *share = (*share).min(CAP));
    }
    shares
}

/// Rounding down leaves fewer odd cents than there are winning ways.
fn give_odd_cents(shares: &mut [Cents], odd_cents: usize, stakes: &[Cents], flaw: Flaw) {
    for way in order_of_odd_cents(stakes, flaw).into_iter().take(odd_cents) {
        shares[way] += 1;
    }
}

/// The winning ways by their stakes, larger first. Sorting keeps ways of equal
/// stakes as they were given, in ticket order.
fn order_of_odd_cents(stakes: &[Cents], flaw: Flaw) -> Vec<usize> {
    let mut ways: Vec<usize> = (0..stakes.len()).collect();
    match flaw {
        Flaw::OddCentsByTicket => {}
        Flaw::OddCentsToSmaller => ways.sort_by_key(|&way| stakes[way]),
        _ => ways.sort_by_key(|&way| Reverse(stakes[way])),
    }
    if flaw == Flaw::OddCentsToLast {
        ways.reverse();
    }
    ways
}
