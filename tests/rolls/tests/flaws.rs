//! The test of the tests: every house with a flaw that shows in a ledger prints
//! another one than the true house on the rolls meant to find it, and on some
//! mixed roll.

use reference::ledger::{ledger, ledger_of};
use reference::{Flaw, House};
use rolls::{calling_off, collecting, lucky_last, mixed, odd_cents, scenarios};

const SEED: u64 = 1998;

fn finds(flaw: Flaw, rolls: &[Vec<u8>]) -> bool {
    rolls.iter().any(|roll| ledger_of(&mut House::flawed(flaw), roll) != ledger(roll))
}

#[test]
fn scenarios_find_their_flaws() {
    let sets = [
        (Flaw::SettlesOneGameMore, scenarios::keno_to_go(SEED)),
        (Flaw::SettlesOneGameMore, scenarios::expiries(SEED)),
        (Flaw::OneCutRound, scenarios::crowded_cuts(SEED)),
        (Flaw::CappedJackpot, scenarios::grown_jackpots(SEED)),
        (Flaw::PoolsAtSale, scenarios::cancels(SEED)),
        (Flaw::PoolsAtSale, scenarios::keno_to_go(SEED)),
        (Flaw::OddCentsToLast, scenarios::shared_jackpots(SEED)),
        (Flaw::OddCentsToLast, scenarios::transfers(SEED)),
        (Flaw::OddCentsByTicket, scenarios::shared_jackpots(SEED)),
        (Flaw::OddCentsToSmaller, scenarios::shared_jackpots(SEED)),
        (Flaw::YearOf365Days, scenarios::expiries(SEED)),
        (Flaw::YearOf365Days, scenarios::februaries(SEED)),
        (Flaw::EveryFourthYearLeaps, scenarios::expiries(SEED)),
        (Flaw::EveryFourthYearLeaps, scenarios::februaries(SEED)),
        (Flaw::FeatureByAnyBall, lucky_last::numbers(SEED)),
        (Flaw::FeatureByAnyBall, scenarios::keno_to_go(SEED)),
        (Flaw::NoFeatureInFreeGames, lucky_last::beside_cuts(SEED)),
        (Flaw::NoFeatureInFreeGames, scenarios::keno_to_go(SEED)),
        (Flaw::FeatureAmongMajors, lucky_last::beside_cuts(SEED)),
        (Flaw::FeatureStakeNotRefunded, lucky_last::operands()),
        (Flaw::FeatureStakeNotRefunded, scenarios::cancels(SEED)),
        (Flaw::CollectedStaysLive, collecting::moments(SEED)),
        (Flaw::CollectedStaysLive, collecting::two_hundred(SEED)),
        (Flaw::CollectedDueIsKept, collecting::moments(SEED)),
        (Flaw::CollectedDueIsKept, collecting::jackpots(SEED)),
        (Flaw::ReissuedAsSoldToday, collecting::moments(SEED)),
        (Flaw::ReissuedFreeGamesAnew, collecting::in_a_row(SEED)),
        (Flaw::ReissuedWithoutGameBeingDrawn, collecting::moments(SEED)),
        (Flaw::ReissuedWithoutGameBeingDrawn, collecting::two_hundred(SEED)),
        (Flaw::FreeGameGivenBack, calling_off::free_games(SEED)),
        (Flaw::CalledOffGamePools, calling_off::moments(SEED)),
        (Flaw::CalledOffGamePools, calling_off::jackpots(SEED)),
        (Flaw::CalledOffBallsStay, calling_off::moments(SEED)),
        (Flaw::CalledOffBallsStay, calling_off::two_hundred(SEED)),
        (Flaw::CalledOffNumberStays, calling_off::moments(SEED)),
        (Flaw::CalledOffNumberStays, calling_off::in_a_row(SEED)),
        (Flaw::CalledOffStakesStayHeld, calling_off::moments(SEED)),
        (Flaw::CalledOffStakesStayHeld, calling_off::free_games(SEED)),
        (Flaw::LostStaysLive, scenarios::cancels(SEED)),
        (Flaw::LostStaysLive, scenarios::crowded_lounge(SEED)),
        (Flaw::CancelledStaysLive, scenarios::cancels(SEED)),
        (Flaw::CancelledStaysLive, collecting::moments(SEED)),
        (Flaw::CalledOffStaysLive, calling_off::free_games(SEED)),
    ];
    for (flaw, rolls) in sets {
        assert!(finds(flaw, &rolls), "{flaw:?}");
    }
}

/// Each of the sets finds each of the wrong orders.
#[test]
fn odd_cents_in_another_order_are_found() {
    let sets = [
        odd_cents::winners(SEED),
        odd_cents::ways(SEED),
        odd_cents::apart(SEED),
        odd_cents::free_games(SEED),
    ];
    for flaw in [Flaw::OddCentsByTicket, Flaw::OddCentsToSmaller, Flaw::OddCentsToLast] {
        for (place, rolls) in sets.iter().enumerate() {
            assert!(finds(flaw, rolls), "{flaw:?}, set {place}");
        }
    }
}

#[test]
fn mixed_rolls_find_every_flaw_of_a_ledger() {
    let rolls = mixed::mixed_set(SEED, 60, 1_000);
    for flaw in Flaw::ALL {
        // The live list is in no ledger.
        assert_eq!(finds(flaw, &rolls), flaw != Flaw::FallingLiveList, "{flaw:?}");
    }
    assert!(!finds(Flaw::None, &rolls));
}
