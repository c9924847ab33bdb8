//! The proved core against the reference on the rolls of the crate `rolls`:
//! the same answers, the same stops, the same tills, pools and live lists.

mod side_by_side;

use reference::command::{BALL, CLAIM};
use reference::roll::ANSWER_BYTES;
use reference::Flaw;
use rolls::coverage::FAR_CODES;
use rolls::{damaged, everything, mixed, NamedRoll};
use side_by_side::edges::edge_rolls;
use side_by_side::lucky::lucky_rolls;
use side_by_side::{Counts, Pair};
use std::sync::OnceLock;

const SEEDS: [u64; 4] = [1998, 7, 65_537, 0xF00D];

/// Rolls up to this length are run command by command too.
const SHORT: usize = 30_000;

fn print_counts(what: &str, pair: &Pair) {
    let counts = &pair.counts;
    let accepted = counts.proved.percent_accepted();
    println!("{what}: {} commands, {accepted}% accepted, {} tills", counts.commands, counts.tills);
}

/// Made once for all tests.
fn all_rolls() -> &'static [NamedRoll] {
    static ROLLS: OnceLock<Vec<NamedRoll>> = OnceLock::new();
    ROLLS.get_or_init(|| SEEDS.into_iter().flat_map(everything).collect())
}

#[test]
fn every_roll_through_a_book_of_a_hundred_answers() {
    let mut pair = Pair::fresh();
    for roll in all_rolls() {
        pair.start_anew();
        let read = pair.read_through(&roll.bytes, 100 * ANSWER_BYTES);
        assert_eq!(read, Ok(()), "{}", roll.name);
    }
    pair.counts.check(&FAR_CODES).unwrap();
    assert!(pair.counts.commands >= 1_000_000);
    print_counts("every roll", &pair);
}

#[test]
fn short_rolls_by_command() {
    let mut pair = Pair::fresh();
    for roll in all_rolls().iter().filter(|roll| roll.bytes.len() <= SHORT) {
        pair.start_anew();
        assert_eq!(pair.read_by_command(&roll.bytes), Ok(()), "{}", roll.name);
    }
    // Here each book has room for its one answer.
    for (side, coverage) in pair.counts.sides() {
        assert_eq!(coverage.missing(&FAR_CODES), ["stop 3"], "{side}");
        assert_eq!(coverage.impossible(), [""; 0], "{side}");
    }
    assert_eq!(pair.counts.features.missing(), [""; 0]);
    assert!(pair.counts.commands >= 300_000);
    print_counts("by command", &pair);
}

/// Through the function for one command, every stop among them.
#[test]
fn commands_one_by_one() {
    let mut rolls = mixed::mixed_set(11, 20, 1_000);
    rolls.extend(damaged::damaged_set(11, 60));
    rolls.extend(damaged::noise(11, 40));
    rolls.extend(edge_rolls().into_iter().skip(1));
    let mut pair = Pair::fresh();
    for roll in rolls {
        pair.start_anew();
        assert_eq!(pair.give_one_by_one(&roll), Ok(()), "{roll:?}");
    }
    pair.counts.check(&FAR_CODES).unwrap();
    assert!(pair.counts.commands >= 90_000);
    print_counts("one by one", &pair);
}

/// Whole rolls at once, in a book with room for all answers. Each claim that is accepted
/// is seen to pay something as it is counted.
#[test]
fn mixed_rolls() {
    let mut pair = Pair::fresh();
    for roll in mixed::mixed_set(2026, 700, 1_000) {
        pair.start_anew();
        let read = pair.read_through(&roll, roll.len() * ANSWER_BYTES + 1);
        assert_eq!(read, Ok(()), "{roll:?}");
    }
    assert!(pair.counts.commands >= 2_000_000);
    for (side, coverage) in pair.counts.sides() {
        let claims = coverage.answers(CLAIM, 0);
        println!("{side}: {claims} claims, each paid more than nothing");
        assert!(claims >= 10_000, "{side}: {claims}");
    }
    print_counts("mixed", &pair);
}

/// One roll after another on one house, so that old tickets, days and pools
/// meet commands that were made for other ones.
#[test]
fn a_house_kept_from_roll_to_roll() {
    let mut pair = Pair::fresh();
    for seed in 0..8 {
        pair.start_anew();
        for roll in mixed::mixed_set(seed, 12, 600) {
            let read = pair.read_through(&roll, 64 * ANSWER_BYTES);
            assert_eq!(read, Ok(()), "set {seed}: {roll:?}");
        }
    }
    print_counts("one house", &pair);
}

#[test]
fn lucky_guests() {
    let mut pair = Pair::fresh();
    for roll in lucky_rolls(41, 250) {
        pair.start_anew();
        assert_eq!(pair.read_by_command(&roll), Ok(()), "{roll:?}");
    }
    assert!(pair.counts.repeated_cuts > 100, "{}", pair.counts.repeated_cuts);
    let features = &pair.counts.features;
    assert!(features.games(true, true, true) > 100, "{features:?}");
    print_counts("lucky guests", &pair);
}

#[test]
fn operands_at_their_edges() {
    let mut pair = Pair::fresh();
    for (place, roll) in edge_rolls().iter().enumerate() {
        pair.start_anew();
        let read = pair.read_through(roll, 1_000 * ANSWER_BYTES);
        assert_eq!(read, Ok(()), "roll {place}");
    }
    // All but the first, of 20,000 sales, are short.
    for (place, roll) in edge_rolls().iter().enumerate().skip(1) {
        pair.start_anew();
        assert_eq!(pair.read_by_command(roll), Ok(()), "roll {place}");
    }
    print_counts("edges", &pair);
}

/// Books from no byte to three answers and a few bytes: a book that is full
/// between two answers, within one, or never.
#[test]
fn books_of_every_small_size() {
    let mut rolls = mixed::mixed_set(3, 6, 150);
    rolls.extend(damaged::damaged_set(3, 60));
    rolls.extend(damaged::noise(3, 20));
    let mut pair = Pair::fresh();
    for book_bytes in 0..=3 * ANSWER_BYTES + 5 {
        for roll in &rolls {
            pair.start_anew();
            let start = &roll[..roll.len().min(4_000)];
            let read = pair.read_through(start, book_bytes);
            assert_eq!(read, Ok(()), "book of {book_bytes} bytes: {roll:?}");
        }
    }
    print_counts("small books", &pair);
}

/// A record of an answer with this code, or an accepted one with so many cents.
fn record(command: u8, code: u8, cents: u8) -> [u8; ANSWER_BYTES] {
    let number = u8::from(code == 0);
    [command, code, 0, 0, 0, number, 0, 0, 0, 0, 0, 0, 0, cents]
}

/// The test of the counting: what no house may answer is found on either side, and on both,
/// where the two agree on it.
#[test]
fn answers_that_no_house_may_give_are_found() {
    let right = [record(BALL, 0, 0), record(CLAIM, 0, 1), record(CLAIM, 19, 0)].concat();
    let mut counts = Counts::default();
    assert_eq!(counts.count(&right, &right), Ok(()));
    for (side, coverage) in counts.sides() {
        let counted =
            [(BALL, 0), (CLAIM, 0), (CLAIM, 19)].map(|(byte, code)| coverage.answers(byte, code));
        assert_eq!(counted, [1, 1, 1], "{side}");
    }
    let mut wrong: Vec<_> = (1..=10).map(|command| record(command, 24, 0)).collect();
    // A code of other commands, no command's code, no command, and a claim that pays nothing.
    wrong.extend([
        record(CLAIM, 34, 0),
        record(CLAIM, 36, 0),
        record(11, 4, 0),
        record(CLAIM, 0, 0),
    ]);
    for answer in wrong {
        let wrong = [&right[..], &answer].concat();
        let found = |proved: &[u8], reference: &[u8]| {
            Counts::default().count(proved, reference).expect_err("no house may give it")
        };
        assert!(found(&wrong, &right).starts_with("proved: "), "{answer:?}");
        assert!(found(&right, &wrong).starts_with("reference: "), "{answer:?}");
        assert!(found(&wrong, &wrong).starts_with("proved: "), "{answer:?}");
    }
    let both = Counts::default().count(&record(CLAIM, 24, 0), &record(CLAIM, 24, 0));
    assert_eq!(both, Err("proved: command 5 is answered 24, no code of it".into()));
}

/// The test of these tests: beside a flawed reference the comparison fails, on
/// a whole roll and command by command.
#[test]
fn every_flaw_is_found() {
    let mut rolls = lucky_rolls(41, 20);
    rolls.extend(all_rolls().iter().map(|roll| roll.bytes.clone()));
    for flaw in Flaw::ALL {
        let differs =
            |roll: &&Vec<u8>| Pair::flawed(flaw).read_through(roll, 100 * ANSWER_BYTES).is_err();
        let roll = rolls.iter().find(differs);
        let roll = roll.unwrap_or_else(|| panic!("{flaw:?} makes no difference"));
        let found = Pair::flawed(flaw).read_by_command(roll);
        println!("{flaw:?}: {}", found.expect_err("the same roll, command by command"));
        Pair::flawed(flaw).give_one_by_one(roll).expect_err("the same roll, one by one");
    }
}
