//! "Lucky Last" on the true house.

mod checks;

use checks::{lucky_last, Desk, FIRST_TWENTY, LAST_TWENTY};
use reference::{Draw, Flaw, Jackpots};

#[test]
fn each_check_of_the_feature_holds() {
    for (name, check) in lucky_last::ALL {
        check(Flaw::None).unwrap_or_else(|found| panic!("{name}: {found}"));
    }
}

/// The same numbers drawn in another order are the same but for the last.
#[test]
fn a_draw_says_which_ball_came_last() {
    let mut balls = FIRST_TWENTY;
    for last in 0..20 {
        balls.swap(last, 19);
        let draw = Draw::of(&balls);
        let number = FIRST_TWENTY[last];
        assert_eq!(draw.matched(&FIRST_TWENTY), 20);
        assert_eq!(draw.matched(&LAST_TWENTY), 0);
        assert!(draw.last_is_among(&[80, number]));
        assert!(!FIRST_TWENTY.iter().any(|&ball| ball != number && draw.last_is_among(&[ball])));
        balls.swap(last, 19);
    }
}

/// Features give the jackpots nothing, and a ticket of Sell has none, whatever
/// the last ball.
#[test]
fn no_feature_without_a_feature_stake() {
    let mut desk = Desk::new(Flaw::None);
    desk.lucky_last(2, 100, 5_000, &[1, 2, 3, 4, 5, 20]);
    assert_eq!(desk.draw(&LAST_TWENTY).cents, 0);
    assert_eq!(*desk.house.pools(), Jackpots::fresh());
    desk.straight(0, 1, 100, &[20]);
    // $1,000 for 6 of 6, $10 for a feature dollar on six numbers, $3 for 1 of 1.
    assert_eq!(desk.draw(&FIRST_TWENTY).cents, 100_000 + 50_000 + 300);
    assert_eq!(*desk.house.pools(), Jackpots::fresh());
    assert_eq!(desk.pays(2), 300);
    desk.difference.expect("house and sheet agree");
}

/// A year in which every figure but seeds and pools moves by features.
#[test]
fn nine_figures_with_features() {
    let mut desk = Desk::new(Flaw::None);
    let claimed = desk.lucky_last(1, 100, 200, &[20]);
    let expiring = desk.lucky_last(1, 100, 100, &[20, 61]);
    let cancelled = desk.lucky_last(3, 200, 300, &[20, 61, 62]);
    let lost = desk.lucky_last(1, 100, 400, &[19]);
    // 300, 200, 1,500 and 500.
    assert_eq!(desk.house.till(), [2_500, 1_350_000, 0, 0, 0, 2_500, 0, 1_350_000, 0]);

    // 300 + 12,000, 3,000 and 6,000 for 20, and 300 for 19.
    assert_eq!(desk.draw(&FIRST_TWENTY).cents, 21_600);
    let till = [2_500, 1_350_000, 0, 0, 21_600, 1_000, 0, 1_350_000, 1_500 - 21_600];
    assert_eq!(desk.house.till(), till);

    assert_eq!(desk.cancel(cancelled).cents, 1_000);
    assert_eq!(desk.pays(claimed), 12_300);
    assert_eq!(desk.pays(lost), 300);
    desk.open(367);
    assert_eq!(desk.expire().cents, 9_000);
    assert_eq!(desk.claim(expiring).code, 19);
    let till = [2_500, 1_350_000, 12_600, 1_000, 0, 0, 9_000, 1_350_000, 1_500 - 21_600];
    assert_eq!(desk.house.till(), till);
    desk.difference.expect("house and sheet agree");
}
