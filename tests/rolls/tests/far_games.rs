//! Two hundred million balls to the last game, where codes 17 and 26 are.

use reference::command::{BALL, CALL_OFF, LUCKY_LAST, SELL};
use reference::roll::ANSWER_BYTES;
use reference::{run_roll, House};
use rolls::{Coverage, FarGames};

/// Every roll one after another on one house; and a seasoned house, which has
/// not walked, answers the last roll the same.
#[test]
fn the_last_games() {
    let far = FarGames::new();
    let mut house = House::fresh();
    let mut book = vec![0; 65_536 / 2 * ANSWER_BYTES];
    let mut answers = 0;
    for roll in far.rolls() {
        let report = run_roll(&mut house, roll, &mut book);
        assert_eq!((report.stop, report.read), (0, roll.len()));
        answers = report.answers;
    }
    assert_eq!(house.game(), 10_000_000);

    let mut seasoned = House::seasoned(1, far.games_before_the_last_roll(), 0);
    let mut short_book = vec![0; answers * ANSWER_BYTES];
    run_roll(&mut seasoned, far.last_roll(), &mut short_book);
    assert!(book[..short_book.len()] == short_book);
    assert_eq!(house.till(), seasoned.till());

    let mut coverage = Coverage::new();
    coverage.count_book(&short_book);
    assert!(coverage.answers(SELL, 17) >= 5);
    assert!(coverage.answers(LUCKY_LAST, 17) >= 5);
    assert_eq!(coverage.answers(BALL, 26), 2);
    assert_eq!(coverage.answers(BALL, 25), 2);
    assert_eq!((coverage.answers(CALL_OFF, 0), coverage.answers(CALL_OFF, 26)), (1, 2));
    assert_eq!(coverage.impossible(), [""; 0]);
}
