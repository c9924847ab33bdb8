//! "Prizes": what a way wins by itself, and the cut of a game's major prizes;
//! and what a feature wins.

use crate::flaw::Flaw;
use crate::schedule;
use crate::ticket::Kind;
use crate::Cents;

/// The most a way can win, jackpot tickets aside (rule 12.2).
pub const CAP: Cents = 5_000_000;

/// The least major prize, and what no major prize is cut below (rule 12.4).
pub const MAJOR: Cents = 20_000;

/// What the major prizes of a game may come to, uncut (rule 12.3).
pub const MAJORS_TOGETHER: Cents = 5_000_000;

/// A way's prize before any cut. A full match on a jackpot ticket has none: it
/// gets a share of the jackpot instead.
pub fn way_prize(kind: Kind, selected: usize, matched: usize, stake: Cents, flaw: Flaw) -> Cents {
    if is_jackpot_hit(kind, selected, matched) {
        return 0;
    }
    let prize = Cents::from(dollars(kind, selected, matched)) * stake;
    if kind == Kind::Jackpot && flaw != Flaw::CappedJackpot {
        prize
    } else {
        prize.min(CAP)
    }
}

/// A full match on kind 1.
pub fn is_jackpot_hit(kind: Kind, selected: usize, matched: usize) -> bool {
    kind == Kind::Jackpot && selected == matched
}

/// Schedule dollars; jackpot tickets short of a full match go by rule 18.1
/// (rule 12.7).
fn dollars(kind: Kind, selected: usize, matched: usize) -> u32 {
    match kind {
        Kind::Standard | Kind::Jackpot => schedule::standard(selected, matched),
        Kind::SpecialOne => schedule::special_one(selected, matched),
        Kind::SpecialTwo => schedule::special_two(selected, matched),
    }
}

/// What a feature wins when the last ball is among the ticket's numbers: by rule
/// 21.1, however much that is. Feature stakes are whole dollars.
pub fn feature_prize(selected: usize, feature_stake: Cents) -> Cents {
    Cents::from(schedule::lucky_last(selected)) * (feature_stake / 100)
}

/// The major prizes of a game after the cut, in the order they came in.
#[derive(Clone, Debug, PartialEq, Eq)]
pub struct Cut {
    pub prizes: Vec<Cents>,
    /// Whether they came to more than [`MAJORS_TOGETHER`].
    pub applied: bool,
    /// In how many rounds prizes joined the floored.
    pub rounds: usize,
    /// How many prizes were floored.
    pub floored: usize,
}

/// Cuts major prizes that together exceed [`MAJORS_TOGETHER`].
pub fn cut(majors: &[Cents], flaw: Flaw) -> Cut {
    let mut floored = vec![false; majors.len()];
    let mut rounds = 0;
    if majors.iter().sum::<Cents>() <= MAJORS_TOGETHER {
        return Cut { prizes: majors.to_vec(), applied: false, rounds, floored: 0 };
    }
    while join_the_floored(majors, &mut floored) {
        rounds += 1;
        if flaw == Flaw::OneCutRound {
            break;
        }
    }
    let mut prizes = in_proportion(majors, &floored);
    if flaw == Flaw::OneCutRound {
        // A is above zero for any prize left outside F, but not when somebody
        // stopped looking too early.
        prizes.iter_mut().for_each(|prize| *prize = (*prize).max(0));
    }
    let floored = floored.iter().filter(|&&f| f).count();
    Cut { prizes, applied: true, rounds, floored }
}

/// One round: every p outside F with p × A < 20,000 × B joins F, all by the A
/// and B that stood when the round began. Says whether any did.
fn join_the_floored(majors: &[Cents], floored: &mut [bool]) -> bool {
    let (a, b) = a_and_b(majors, floored);
    let mut joined = false;
    for (&p, floored) in majors.iter().zip(floored) {
        if !*floored && p * a < MAJOR * b {
            *floored = true;
            joined = true;
        }
    }
    joined
}

/// F gets 20,000 each, the others p × A / B rounded down.
fn in_proportion(majors: &[Cents], floored: &[bool]) -> Vec<Cents> {
    let (a, b) = a_and_b(majors, floored);
    let paid = |(&p, &floored): (&Cents, &bool)| if floored { MAJOR } else { p * a / b };
    majors.iter().zip(floored).map(paid).collect()
}

/// A is what is left for the prizes outside F, and may be below zero; B is
/// what those prizes come to.
fn a_and_b(majors: &[Cents], floored: &[bool]) -> (Cents, Cents) {
    let size_of_f = floored.iter().filter(|&&f| f).count() as Cents;
    let outside = majors.iter().zip(floored).filter(|(_, &f)| !f);
    (MAJORS_TOGETHER - MAJOR * size_of_f, outside.map(|(&p, _)| p).sum())
}
