//! Rules 12.3 to 12.6 on lists that no example has: the cut against another way
//! to work it out, and shares that come to the primary to the cent, the odd cents
//! by stake.

use reference::jackpots::shares;
use reference::prizes::{cut, MAJOR, MAJORS_TOGETHER};
use reference::{Cents, Flaw};

/// Numbers that look random, the same each time.
struct Numbers(u64);

impl Numbers {
    fn below(&mut self, bound: u64) -> u64 {
        self.0 = self.0.wrapping_mul(6_364_136_223_846_793_005).wrapping_add(1);
        (self.0 >> 33) % bound
    }

    /// Majors of all sizes, from just above the least to far above the cap.
    fn major(&mut self) -> Cents {
        let spread = [1, 100, 10_000, 1_000_000, 5_000_000, 555_000_000][self.below(6) as usize];
        MAJOR + Cents::from(self.below(spread))
    }
}

/// The cut one prize at a time: the smallest outside F joins it for as long as
/// its part would be under $200. Each that joins takes more than its part, so
/// the part of the next one only shrinks, and F ends the same as by rounds.
fn one_by_one(majors: &[Cents]) -> Vec<Cents> {
    if majors.iter().sum::<Cents>() <= MAJORS_TOGETHER {
        return majors.to_vec();
    }
    let mut order: Vec<usize> = (0..majors.len()).collect();
    order.sort_by_key(|&index| majors[index]);
    let mut a = MAJORS_TOGETHER;
    let mut b: Cents = majors.iter().sum();
    let mut paid = vec![0; majors.len()];
    let mut left = order.as_slice();
    while let Some((&index, rest)) = left.split_first() {
        if majors[index] * a >= MAJOR * b {
            break;
        }
        paid[index] = MAJOR;
        a -= MAJOR;
        b -= majors[index];
        left = rest;
    }
    for &index in left {
        paid[index] = majors[index] * a / b;
    }
    paid
}

#[test]
fn by_rounds_and_one_by_one() {
    let mut numbers = Numbers(1998);
    let mut most_rounds = 0;
    for _game in 0..4_000 {
        let count = numbers.below(300);
        let majors: Vec<Cents> = (0..count).map(|_| numbers.major()).collect();
        let cut = cut(&majors, Flaw::None);
        assert_eq!(cut.prizes, one_by_one(&majors), "{majors:?}");
        assert!(cut.prizes.iter().all(|&prize| prize >= MAJOR));
        assert!(cut.prizes.iter().zip(&majors).all(|(cut, major)| cut <= major));
        let together: Cents = cut.prizes.iter().sum();
        let all_floored = cut.floored == majors.len();
        assert!(together <= MAJORS_TOGETHER || all_floored);
        most_rounds = most_rounds.max(cut.rounds);
    }
    assert!(most_rounds >= 3, "{most_rounds}");
}

#[test]
fn shares_come_to_the_primary() {
    let mut numbers = Numbers(7);
    let mut ends_within_a_stake = 0;
    for _game in 0..4_000 {
        let primary = 100_000 + Cents::from(numbers.below(1 << 40));
        let count = 1 + numbers.below(300);
        // Up to one stake for all, three, a hundred, or any.
        let most = [1, 3, 100, 9_999][numbers.below(4) as usize];
        let stakes: Vec<Cents> =
            (0..count).map(|_| 100 * (1 + Cents::from(numbers.below(most)))).collect();
        let shares = shares(primary, &stakes, Flaw::None);
        assert_eq!(shares.iter().sum::<Cents>(), primary);
        let (with, without) = with_and_without_an_odd_cent(primary, &stakes, &shares);
        // Whoever has a cent comes before everybody who has none.
        for &(place, stake) in &with {
            let is_before = |&(other, smaller): &(usize, Cents)| {
                stake > smaller || stake == smaller && place < other
            };
            assert!(without.iter().all(is_before), "{primary}: {stakes:?}");
        }
        let same_stake = |&(_, stake): &(usize, Cents)| without.iter().any(|way| way.1 == stake);
        ends_within_a_stake += usize::from(with.iter().any(same_stake));
    }
    // Or the places would not have been tried.
    assert!(ends_within_a_stake > 2_000, "{ends_within_a_stake}");
}

/// Winning ways by their places and stakes.
type Ways = Vec<(usize, Cents)>;

/// The ways that have an odd cent, and those that have none. None has more.
fn with_and_without_an_odd_cent(
    primary: Cents,
    stakes: &[Cents],
    shares: &[Cents],
) -> (Ways, Ways) {
    assert_eq!(shares.len(), stakes.len());
    let all: Cents = stakes.iter().sum();
    let (mut with, mut without) = (Ways::new(), Ways::new());
    for (place, (&stake, share)) in stakes.iter().zip(shares).enumerate() {
        match share - primary * stake / all {
            1 => with.push((place, stake)),
            0 => without.push((place, stake)),
            odd => panic!("{odd} odd cents: {primary}: {stakes:?}"),
        }
    }
    (with, without)
}
