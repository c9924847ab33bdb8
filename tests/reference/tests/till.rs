//! "Till" and "The count sheet": the nine figures by hand, and cancels before,
//! while and after drawing.

mod checks;

use checks::{Desk, Groups, FIRST_TWENTY, LAST_TWENTY};
use reference::command::Answer;
use reference::Flaw;

const SIX: [u8; 6] = [1, 2, 3, 4, 5, 6];

fn desk() -> Desk {
    Desk::new(Flaw::None)
}

/// A day's trade in which no figure stays 0, each worked out by hand.
#[test]
fn nine_figures_by_hand() {
    let mut desk = desk();
    let expiring = desk.straight(0, 1, 100, &[1]);
    let claimed = desk.straight(0, 1, 100, &[2]);
    let owed = desk.straight(1, 3, 200, &SIX);
    assert_eq!(desk.house.till(), [800, 1_350_000, 0, 0, 0, 800, 0, 1_350_000, 0]);

    // 300 and 300 in prizes. The six shares 100,000 + 30; the secondary's 10
    // and a seed of 99,990 make a primary of 100,000; reimbursement pays 10.
    assert_eq!(desk.draw(&FIRST_TWENTY), Answer::accepted(20, 100_630));
    // Pooled: 1,350,000 + 50 - 100,030 + 99,990 - 10. Retained: 400 - 50 - 600 + 10.
    let till = [800, 1_449_990, 0, 0, 100_630, 400, 0, 1_350_000, -240];
    assert_eq!(desk.house.till(), till);

    assert_eq!(desk.cancel(owed), Answer::accepted(owed, 400));
    assert_eq!(desk.pays(claimed), 300);
    desk.open(367);
    let unplayed = desk.straight(3, 2, 500, &[4, 5, 6]);
    assert_eq!(desk.expire(), Answer::accepted(2, 100_330));
    assert_eq!(desk.claim(expiring).code, 19);
    assert_eq!(desk.transfer(8, 100_000), Answer::accepted(8, 1_350_000));
    let till = [1_800, 1_449_990, 300, 400, 0, 1_000, 330, 1_450_000, -240];
    assert_eq!(desk.house.till(), till);

    // Three of three at $5 is 28,000.
    desk.draw(&FIRST_TWENTY);
    let till = [1_800, 1_449_990, 300, 400, 28_000, 500, 330, 1_450_000, 500 - 240 - 28_000];
    assert_eq!(desk.house.till(), till);
    assert_eq!(desk.claim(unplayed).code, 23);
    desk.difference.expect("house and sheet agree");
}

#[test]
fn cancel_before_the_first_ball_takes_every_game() {
    let mut desk = desk();
    let ticket = desk.straight(0, 5, 200, &[1]);
    assert_eq!(desk.cancel(ticket), Answer::accepted(ticket, 1_000));
    // Nothing is due, so it is closed.
    assert_eq!(desk.cancel(ticket).code, 19);
    assert_eq!(desk.draw(&FIRST_TWENTY).cents, 0);
    desk.difference.expect("house and sheet agree");
}

#[test]
fn cancel_while_drawing_leaves_the_game_being_drawn() {
    let mut desk = desk();
    let ticket = desk.straight(0, 5, 200, &[1]);
    desk.ball(1);
    assert_eq!(desk.cancel(ticket), Answer::accepted(ticket, 800));
    assert_eq!(desk.cancel(ticket).code, 22);
    assert_eq!(desk.claim(ticket).code, 23);
    assert_eq!(desk.draw(&FIRST_TWENTY[1..]), Answer::accepted(20, 600));
    assert_eq!(desk.draw(&FIRST_TWENTY), Answer::accepted(20, 0));
    assert_eq!(desk.pays(ticket), 600);
    desk.difference.expect("house and sheet agree");
}

#[test]
fn cancel_after_a_win_leaves_it_to_claim() {
    let mut desk = desk();
    let ticket = desk.straight(0, 5, 200, &[1]);
    desk.draw(&FIRST_TWENTY);
    assert_eq!(desk.cancel(ticket), Answer::accepted(ticket, 800));
    // Finished that day, with a due, and so live until claimed.
    assert_eq!(desk.cancel(ticket).code, 22);
    assert_eq!(desk.house.tickets()[0].finished_on, Some(1));
    assert_eq!(desk.pays(ticket), 600);
    desk.difference.expect("house and sheet agree");
}

/// Sold while drawing, a ticket begins with the next game; until that game's
/// first ball all of it can be cancelled, a Keno To Go as well.
#[test]
fn sold_while_drawing() {
    let mut desk = desk();
    desk.ball(1);
    let plain = desk.straight(0, 2, 100, &[1]);
    let to_go = desk.straight(0, 100, 100, &[1]);
    let kept = desk.straight(0, 1, 100, &[1]);
    assert_eq!(desk.cancel(plain).cents, 200);
    assert_eq!(desk.draw(&FIRST_TWENTY[1..]).cents, 0);
    assert_eq!(desk.cancel(to_go).cents, 9_800);
    assert_eq!(desk.draw(&FIRST_TWENTY).cents, 300);
    assert_eq!(desk.pays(kept), 300);
    desk.difference.expect("house and sheet agree");
}

/// Each way by itself, and small prizes beside cut major ones.
#[test]
fn ways_win_one_by_one() {
    let mut desk = desk();
    // Ways {1}, {80} and {1, 80}: $3 for the first, nothing for the others.
    let groups: Groups = &[&[1], &[80]];
    let ticket = desk.sell(0, 1, 100, groups, 3);
    assert_eq!(ticket, Answer::accepted(1, 300));
    // A Special One by its own table: $1,200 for 6 of 6, and rule 18.1 for the
    // pairs of three, $36 each.
    let special: Groups = &[&[1, 2, 3], &[4, 5, 6]];
    assert_eq!(desk.sell(2, 1, 100, special, 3), Answer::accepted(2, 300));
    assert_eq!(desk.draw(&FIRST_TWENTY).cents, 300 + 120_000 + 2 * 3_600);
    assert_eq!(desk.pays(1), 300);
    assert_eq!(desk.pays(2), 127_200);
    desk.difference.expect("house and sheet agree");
}

/// Both jackpots in one game, and no winner in the next: reimbursement pays
/// either way.
#[test]
fn both_jackpots_in_one_game() {
    let mut desk = desk();
    let six = desk.straight(1, 2, 100, &SIX);
    let eight = desk.straight(1, 2, 300, &[1, 2, 3, 4, 5, 6, 7, 8]);
    assert_eq!(desk.draw(&FIRST_TWENTY).cents, 100_015 + 1_250_045);
    assert_eq!(desk.house.pools().eight.debt, 1_250_000 + 1_249_985 - 15);
    // 0 of 8 pays a dollar for a dollar, 0 of 6 nothing.
    assert_eq!(desk.draw(&LAST_TWENTY).cents, 300);
    assert_eq!(desk.house.pools().eight.debt, 1_250_000 + 1_249_985 - 30);
    assert_eq!(desk.house.pools().six.debt, 199_990 - 5);
    assert_eq!(desk.pays(six), 100_015);
    assert_eq!(desk.pays(eight), 1_250_345);
    desk.difference.expect("house and sheet agree");
}

/// Large pools times large stakes: nothing here is cut to 64 bits.
#[test]
fn shares_of_a_very_large_primary() {
    use reference::jackpots::shares;
    let primary = 10i128.pow(18) + 1;
    let got = shares(primary, &[999_900, 999_900, 999_900], Flaw::None);
    let third = primary / 3;
    assert_eq!(got, [third + 1, third + 1, third]);
    assert_eq!(got.iter().sum::<i128>(), primary);
}
