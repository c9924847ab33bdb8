//! "At the twentieth ball, in this order": contributions; prizes and cuts;
//! jackpot shares, secondary and seed; reimbursement.

use crate::draw::Draw;
use crate::flaw::Flaw;
use crate::jackpots::{shares, Jackpot, Jackpots};
use crate::prizes::{cut, feature_prize, is_jackpot_hit, way_prize, MAJOR};
use crate::ticket::{Terms, Winnings};
use crate::Cents;

/// A ticket that runs in the game being settled.
pub struct Entry<'a> {
    pub terms: &'a Terms,
    /// Whether the game is one the ticket was charged for.
    pub paid: bool,
}

/// What a game did with the money.
#[derive(Clone, Debug, Default, PartialEq, Eq)]
pub struct Settlement {
    /// One for each entry, in the same order.
    pub winnings: Vec<Winnings>,
    pub contributed: Cents,
    pub seeded: Cents,
    pub paid_back: Cents,
    /// Whether the major prizes were cut.
    pub cut: bool,
    /// In how many rounds the cut floored prizes.
    pub cut_rounds: usize,
    /// How many major prizes there were, and how many of them were floored.
    pub majors: usize,
    pub floored: usize,
}

/// Settles a game. Entries come in the order of their ticket numbers.
pub fn settle(entries: &[Entry], draw: &Draw, jackpots: &mut Jackpots, flaw: Flaw) -> Settlement {
    let mut settlement =
        Settlement { winnings: vec![Winnings::default(); entries.len()], ..Settlement::default() };
    if flaw != Flaw::PoolsAtSale {
        settlement.contributed = contribute(entries, jackpots);
    }
    give_prizes(entries, draw, &mut settlement, flaw);
    if flaw != Flaw::FeatureAmongMajors {
        give_feature_prizes(entries, draw, &mut settlement, flaw);
    }
    for (numbers, jackpot) in [(6, &mut jackpots.six), (8, &mut jackpots.eight)] {
        share_jackpot(entries, draw, numbers, jackpot, &mut settlement, flaw);
    }
    // Last, and winner or none.
    settlement.paid_back = jackpots.six.pay_back() + jackpots.eight.pay_back();
    settlement
}

/// Free games give nothing, nor do tickets of other kinds.
fn contribute(entries: &[Entry], jackpots: &mut Jackpots) -> Cents {
    let mut contributed = 0;
    for entry in entries.iter().filter(|entry| entry.paid) {
        if let Some(numbers) = entry.terms.jackpot_numbers() {
            let jackpot = jackpots.for_numbers(numbers).expect("jackpot ways have 6 or 8 numbers");
            contributed += jackpot.contribute(entry.terms.way_stakes());
        }
    }
    contributed
}

/// The major prizes of a game: whose each is, and how much before the cut.
#[derive(Default)]
struct Majors {
    winners: Vec<usize>,
    prizes: Vec<Cents>,
}

/// Each way by itself; the major prizes of all tickets together are cut.
fn give_prizes(entries: &[Entry], draw: &Draw, settlement: &mut Settlement, flaw: Flaw) {
    let mut majors = Majors::default();
    let mut give = |index: usize, prize: Cents| {
        if prize >= MAJOR {
            majors.winners.push(index);
            majors.prizes.push(prize);
        } else {
            settlement.winnings[index].prizes += prize;
        }
    };
    for (index, entry) in entries.iter().enumerate() {
        let Terms { kind, stake, ways, .. } = entry.terms;
        for way in ways {
            give(index, way_prize(*kind, way.len(), draw.matched(way), *stake, flaw));
        }
        if flaw == Flaw::FeatureAmongMajors {
            give(index, feature_prize_of(entry, draw, flaw));
        }
    }
    let cut = cut(&majors.prizes, flaw);
    for (index, prize) in majors.winners.into_iter().zip(cut.prizes) {
        settlement.winnings[index].prizes += prize;
    }
    settlement.majors = majors.prizes.len();
    settlement.cut = cut.applied;
    settlement.cut_rounds = cut.rounds;
    settlement.floored = cut.floored;
}

/// Feature prizes are neither capped, major nor cut.
fn give_feature_prizes(entries: &[Entry], draw: &Draw, settlement: &mut Settlement, flaw: Flaw) {
    for (entry, winnings) in entries.iter().zip(&mut settlement.winnings) {
        winnings.feature = feature_prize_of(entry, draw, flaw);
    }
}

/// The last ball decides, in a free game too.
fn feature_prize_of(entry: &Entry, draw: &Draw, flaw: Flaw) -> Cents {
    let Some(numbers) = entry.terms.feature_numbers() else { return 0 };
    let hit = match flaw {
        Flaw::FeatureByAnyBall => draw.matched(numbers) > 0,
        Flaw::NoFeatureInFreeGames => entry.paid && draw.last_is_among(numbers),
        _ => draw.last_is_among(numbers),
    };
    if hit {
        feature_prize(numbers.len(), entry.terms.feature_stake)
    } else {
        0
    }
}

/// Shares the primary among the full matches, if there are any, and starts the
/// jackpot anew.
fn share_jackpot(
    entries: &[Entry],
    draw: &Draw,
    numbers: usize,
    jackpot: &mut Jackpot,
    settlement: &mut Settlement,
    flaw: Flaw,
) {
    let (winners, stakes) = full_matches(entries, draw, numbers);
    if winners.is_empty() {
        return;
    }
    for (index, share) in winners.into_iter().zip(shares(jackpot.primary, &stakes, flaw)) {
        settlement.winnings[index].shares += share;
        // Subtracted share by share, so that a primary that is not shared out
        // whole would show.
        jackpot.primary -= share;
    }
    settlement.seeded += jackpot.start_anew();
}

/// The winning ways of a jackpot: whose each is, and its stake.
fn full_matches(entries: &[Entry], draw: &Draw, numbers: usize) -> (Vec<usize>, Vec<Cents>) {
    let mut winners = Vec::new();
    let mut stakes = Vec::new();
    for (index, entry) in entries.iter().enumerate() {
        let Terms { kind, stake, ways, .. } = entry.terms;
        for way in ways.iter().filter(|way| way.len() == numbers) {
            if is_jackpot_hit(*kind, way.len(), draw.matched(way)) {
                winners.push(index);
                stakes.push(*stake);
            }
        }
    }
    (winners, stakes)
}
