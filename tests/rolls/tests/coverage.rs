//! Every refusal and every stop is met by the rolls, in numbers that mean
//! something.

use reference::command::{BALL, CALL_OFF, CLAIM, COLLECT, LUCKY_LAST, SELL};
use reference::{refusal, House};
use rolls::coverage::FAR_CODES;
use rolls::{
    calling_off, collecting, damaged, everything, far_tickets, mixed, odd_cents, scenarios,
    CallsOff, Collections, Coverage, FarGames, Features,
};

const SEED: u64 = 1998;

fn covered<'a>(rolls: impl IntoIterator<Item = &'a Vec<u8>>, book_answers: usize) -> Coverage {
    let mut coverage = Coverage::new();
    for roll in rolls {
        coverage.count_roll(&mut House::fresh(), roll, book_answers);
    }
    coverage
}

#[test]
fn every_code_and_stop_is_met() {
    let rolls = everything(SEED);
    let coverage = covered(rolls.iter().map(|roll| &roll.bytes), 100);
    coverage.check(&FAR_CODES).unwrap();
}

/// The mixed rolls alone meet every code.
#[test]
fn mixed_rolls_alone() {
    let rolls = mixed::mixed_set(SEED, 60, 1_000);
    let coverage = covered(&rolls, 100);
    let missing = coverage.missing(&FAR_CODES);
    // Nothing stops them but the end of the roll or of the book.
    assert_eq!(missing, ["stop 1", "stop 2"]);
    assert_eq!(coverage.impossible(), [""; 0]);
    assert!(coverage.percent_accepted() >= 80, "{} accepted", coverage.percent_accepted());
    assert!(coverage.answers(SELL, 0) > 1_000);
    assert!(coverage.answers(BALL, 0) > 10_000);
    assert!(coverage.answers(CLAIM, 0) > 500);
    assert!(coverage.answers(LUCKY_LAST, 0) > 500);
    assert!(coverage.answers(COLLECT, 0) > 500);
    assert!(coverage.answers(CALL_OFF, 0) > 500);
}

/// With the far rolls every code that there is is met, but for the live list's.
#[test]
fn every_code_with_the_far_rolls() {
    let mut coverage = covered(everything(SEED).iter().map(|roll| &roll.bytes), 100);
    let far = FarGames::new();
    let mut house = House::seasoned(1, far.games_before_the_last_roll(), 0);
    coverage.count_roll(&mut house, far.last_roll(), 100);
    let mut house = House::seasoned(1, 0, far_tickets::CANCELLED);
    coverage.count_roll(&mut house, &far_tickets::last_collections(), 100);
    coverage.check(&[]).unwrap();
    let is_met = |code: &u8| (1..=10).any(|command| coverage.answers(command, *code) > 0);
    let met: Vec<u8> = (1..=255).filter(is_met).collect();
    let of_commands = |code: &u8| *code != refusal::SHORT_BUFFER;
    let codes: Vec<u8> = refusal::ALL.into_iter().filter(of_commands).collect();
    assert_eq!(met, codes);
}

/// Of collections and of the numbers they issue; and on the mixed rolls alone all but
/// those that a scenario sets up.
#[test]
fn every_outcome_of_a_collection_is_met() {
    let mut collections = Collections::default();
    everything(SEED).iter().for_each(|roll| collections.count_roll(&roll.bytes));
    assert_eq!(collections.outcomes.missing(), [""; 0]);
    let mut collections = Collections::default();
    mixed::mixed_set(SEED, 60, 1_000).iter().for_each(|roll| collections.count_roll(roll));
    let is_set_up = |outcome: &&str| *outcome == "with 200 live tickets";
    assert!(collections.outcomes.missing().iter().all(is_set_up), "{collections:?}");
}

/// Of games called off, of the tickets in them and of what becomes of those; and on the
/// mixed rolls alone all but a full lounge.
#[test]
fn every_outcome_of_a_game_called_off_is_met() {
    let mut calls_off = CallsOff::default();
    everything(SEED).iter().for_each(|roll| calls_off.count_roll(&roll.bytes));
    assert_eq!(calls_off.outcomes.missing(), [""; 0]);
    let mut calls_off = CallsOff::default();
    mixed::often_called_off(SEED, 60, 1_000).iter().for_each(|roll| calls_off.count_roll(roll));
    let is_set_up = |outcome: &&str| *outcome == "with 200 live tickets";
    assert!(calls_off.outcomes.missing().iter().all(is_set_up), "{calls_off:?}");
}

/// Features are won and missed in paid and in free games, with cuts beside them
/// and without, on the mixed rolls alone.
#[test]
fn every_outcome_of_a_feature_is_met() {
    let mut features = Features::default();
    mixed::mixed_set(SEED, 60, 1_000).iter().for_each(|roll| features.count_roll(roll));
    assert_eq!(features.missing(), [""; 0]);
}

/// The test of this test: a set without cancels is found wanting, and a code that is none is
/// found.
#[test]
fn a_missing_code_is_named() {
    let roll = vec![1, 0, 1, 6];
    let found = covered([&roll], 100).check(&FAR_CODES).unwrap_err();
    assert!(found.contains("command 3 with code 20"));
    assert!(found.contains("command 8 with code 31"));
    assert!(found.contains("command 9 with code 34"));
    assert!(found.contains("command 10 with code 4"));
    assert!(found.contains("stop 3"));
    let mut coverage = Coverage::new();
    coverage.count_answer(CLAIM, 24);
    assert_eq!(coverage.impossible(), ["command 5 with code 24"]);
    let mut features = Features::default();
    features.count_roll(&roll);
    assert_eq!(features.missing().len(), 8);
    let mut collections = Collections::default();
    collections.count_roll(&roll);
    assert_eq!(collections.outcomes.missing().len(), 21);
    let mut calls_off = CallsOff::default();
    calls_off.count_roll(&roll);
    assert_eq!(calls_off.outcomes.missing().len(), 31);
}

#[test]
fn the_same_seed_makes_the_same_rolls() {
    assert_eq!(mixed::mixed_set(SEED, 3, 500), mixed::mixed_set(SEED, 3, 500));
    assert_eq!(damaged::damaged_set(SEED, 20), damaged::damaged_set(SEED, 20));
    assert_eq!(scenarios::crowded_cuts(SEED), scenarios::crowded_cuts(SEED));
    assert_eq!(odd_cents::winners(SEED), odd_cents::winners(SEED));
    assert_eq!(collecting::in_a_row(SEED), collecting::in_a_row(SEED));
    assert_eq!(calling_off::in_a_row(SEED), calling_off::in_a_row(SEED));
    assert_ne!(mixed::mixed(1, 100), mixed::mixed(2, 100));
}
