//! The test of the tests: a house with one flaw fails the checks meant for it.

mod checks;

use reference::Flaw;

/// The checks that must not pass with the flaw.
fn must_find(flaw: Flaw) -> &'static [&'static str] {
    match flaw {
        Flaw::None => &[],
        Flaw::SettlesOneGameMore => &["games 93 to 97 end at 97", "five games pay five times"],
        Flaw::OneCutRound => &["cut again until none is under $200"],
        Flaw::CappedJackpot => {
            &["a jackpot ticket's prize is not capped", "a jackpot share is not capped"]
        }
        Flaw::PoolsAtSale => {
            &["a cancel leaves nothing in the pools", "each drawn game contributes by itself"]
        }
        Flaw::OddCentsByTicket => {
            &["sixes at 100, 300 and 200 hit", "odd cents end among the larger ways"]
        }
        Flaw::OddCentsToSmaller => {
            &["sixes at 100 and 200 hit", "odd cents pass on to smaller ways"]
        }
        Flaw::OddCentsToLast => {
            &["odd cents of one stake go to the first ways", "equal stakes by ticket number"]
        }
        Flaw::FallingLiveList => &["the live list rises"],
        Flaw::YearOf365Days => &["finished on 1 March 1999", "finished about 29 February 2000"],
        Flaw::EveryFourthYearLeaps => &["finished about February 2100", "finished about 2104"],
        Flaw::FeatureByAnyBall => &["the same ball as the nineteenth", "every count of numbers"],
        Flaw::NoFeatureInFreeGames => &["free games play for the feature"],
        Flaw::FeatureAmongMajors => {
            &["a feature prize is no major prize", "a feature prize is not cut"]
        }
        Flaw::FeatureStakeNotRefunded => {
            &["a cancel refunds the feature stake", "a cancel while drawing keeps one game's"]
        }
        Flaw::CollectedStaysLive => &["a collected number is closed", "a guest collects part way"],
        Flaw::CollectedDueIsKept => {
            &["what was collected is not due again", "collections one after another"]
        }
        Flaw::ReissuedAsSoldToday => &["a reissued ticket keeps its day of sale"],
        Flaw::ReissuedFreeGamesAnew => {
            &["free games stay the last ones", "free games of a jackpot ticket give none"]
        }
        Flaw::ReissuedWithoutGameBeingDrawn => {
            &["the game being drawn goes to the new number", "only the game being drawn is left"]
        }
        Flaw::FreeGameGivenBack => &["a free game gives nothing", "two free games are called off"],
        Flaw::CalledOffGamePools => &["no pool gains by a game called off"],
        Flaw::CalledOffBallsStay => &["the balls go with the game", "nobody draws any more"],
        Flaw::CalledOffNumberStays => {
            &["a game is called off before its first ball", "games are called off in a row"]
        }
        Flaw::CalledOffStakesStayHeld => {
            &["a game is called off before its first ball", "a claim pays stakes beside prizes"]
        }
        Flaw::LostStaysLive => {
            &["what was collected is not due again", "only the game being drawn is left"]
        }
        Flaw::CancelledStaysLive => &["printed ledger", "a reissued ticket is cancelled"],
        Flaw::CalledOffStaysLive => &["a free game gives nothing"],
    }
}

/// What each check finds wrong with a house of this flaw.
fn findings(flaw: Flaw) -> Vec<(&'static str, String)> {
    checks::all()
        .into_iter()
        .filter_map(|(name, check)| check(flaw).err().map(|found| (name, found)))
        .collect()
}

#[test]
fn the_true_house_passes() {
    assert_eq!(findings(Flaw::None), []);
}

#[test]
fn each_flaw_is_found() {
    for flaw in Flaw::ALL {
        let findings = findings(flaw);
        assert!(!findings.is_empty(), "{flaw:?} passes every check");
        for name in must_find(flaw) {
            let found = findings.iter().find(|finding| finding.0 == *name);
            let (_, what) = found.unwrap_or_else(|| panic!("{flaw:?} passes \"{name}\""));
            // Found by the figures written into the check, and not only because
            // the count sheet stood beside it.
            assert!(!what.starts_with("sheet"), "{flaw:?}, \"{name}\": {what}");
        }
    }
}
