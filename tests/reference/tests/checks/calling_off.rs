//! "A game called off": the current game is dropped with its balls, what was paid for it
//! is due, and nothing else moves.

use super::*;

pub const ALL: &[NamedCheck] = &[
    ("a game is called off before its first ball", before_the_first_ball),
    ("the balls go with the game", the_balls_go_with_the_game),
    ("a ticket whose only game is called off", a_ticket_whose_only_game_is_called_off),
    ("all ways and the feature stake together", all_ways_and_the_feature_stake),
    ("a free game gives nothing", a_free_game_gives_nothing),
    ("two free games are called off", two_free_games_are_called_off),
    ("no pool gains by a game called off", no_pool_gains),
    ("games are called off in a row", games_are_called_off_in_a_row),
    ("sold while drawing, a ticket is not in it", sold_while_drawing_it_is_not_in_it),
    ("a cancel leaves the game called off", a_cancel_leaves_the_game_called_off),
    ("called off after a cancel", called_off_after_a_cancel),
    ("a Keno To Go begins with a game called off", a_keno_to_go_begins),
    ("a Keno To Go sold while drawing has not begun", a_keno_to_go_has_not_begun),
    ("a claim pays stakes beside prizes", a_claim_pays_stakes_beside_prizes),
    ("a collection pays a game called off", a_collection_pays_a_game_called_off),
    ("the new number's game is called off", the_new_numbers_game_is_called_off),
    ("what is due for a game called off expires", what_is_due_expires),
    ("nobody draws any more", nobody_draws_any_more),
];

/// Three games at $1, of which the first is called off. Till by till.
pub fn before_the_first_ball(flaw: Flaw) -> Check {
    let mut desk = Desk::new(flaw);
    let ticket = desk.straight(0, 3, 100, &[1]);
    expect("call off", desk.call_off(), Answer::accepted(1, 100))?;
    let till = [300, 1_350_000, 0, 0, 100, 200, 0, 1_350_000, 0];
    expect("till after", desk.house.till(), till)?;
    expect("game", (desk.house.game(), desk.house.is_drawing()), (2, false))?;
    expect("second game", desk.draw(&FIRST_TWENTY), Answer::accepted(20, 300))?;
    expect("third game", desk.draw(&LAST_TWENTY), Answer::accepted(20, 0))?;
    expect("claim", desk.pays(ticket), 100 + 300)?;
    let till = [300, 1_350_000, 400, 0, 0, 0, 0, 1_350_000, 200 - 300];
    expect("till at the end", desk.house.till(), till)?;
    desk.difference
}

/// With one ball in, with eleven and with nineteen: they may all come again.
pub fn the_balls_go_with_the_game(flaw: Flaw) -> Check {
    for balls_in in [1, 11, 19] {
        let mut desk = Desk::new(flaw);
        let ticket = desk.straight(0, 2, 100, &[1]);
        desk.draw(&FIRST_TWENTY[..balls_in]);
        expect("call off", desk.call_off(), Answer::accepted(1, 100))?;
        expect("balls", desk.house.balls().len(), 0)?;
        for (number, balls_in) in FIRST_TWENTY[..19].iter().zip(1..) {
            expect("ball", desk.ball(*number), Answer::accepted(balls_in, 0))?;
        }
        expect("twentieth ball", desk.ball(20), Answer::accepted(20, 300))?;
        expect("claim", desk.pays(ticket), 400)?;
        desk.difference?;
    }
    Ok(())
}

/// It is finished on the day, due what was paid, and closed by a claim.
pub fn a_ticket_whose_only_game_is_called_off(flaw: Flaw) -> Check {
    let mut desk = Desk::new(flaw);
    let ticket = desk.straight(0, 1, 700, &[1]);
    desk.draw(&FIRST_TWENTY[..5]);
    expect("claim before", desk.claim(ticket), Answer::refused(23))?;
    expect("call off", desk.call_off(), Answer::accepted(1, 700))?;
    expect("finishing day", desk.house.tickets()[0].finished_on, Some(1))?;
    expect("live", desk.house.live_tickets().count(), 1)?;
    expect("collect", desk.collect(ticket), Answer::refused(33))?;
    expect("next game", desk.draw(&FIRST_TWENTY), Answer::accepted(20, 0))?;
    expect("claim", desk.pays(ticket), 700)?;
    expect("claim again", desk.claim(ticket), Answer::refused(19))?;
    let till = [700, 1_350_000, 700, 0, 0, 0, 0, 1_350_000, 0];
    expect("till", desk.house.till(), till)?;
    desk.difference
}

/// Six ways at 50 cents; $1 and $2 on the last ball; two ways of a Special One at $3.
pub fn all_ways_and_the_feature_stake(flaw: Flaw) -> Check {
    let mut desk = Desk::new(flaw);
    desk.sell(0, 2, 50, &[&[1, 2], &[3, 4], &[79, 80]], 3);
    desk.lucky_last(2, 100, 200, &[20]);
    desk.sell(2, 1, 300, &[&[1, 2, 3], &[4, 5, 6]], 1);
    expect("call off", desk.call_off(), Answer::accepted(1, 300 + 300 + 600))?;
    let till = [1_800, 1_350_000, 0, 0, 1_200, 600, 0, 1_350_000, 0];
    expect("till", desk.house.till(), till)?;
    expect("Special One", desk.pays(3), 600)?;
    // Of the ways: 2 of 2 twice, 4 of 4, 2 of 4 twice, at 50 cents. The last ball is 20.
    expect("second game", desk.draw(&FIRST_TWENTY).cents, 7_050 + 300 + 12_000)?;
    expect("ways", desk.pays(1), 300 + 7_050)?;
    expect("feature", desk.pays(2), 300 + 300 + 12_000)?;
    desk.difference
}

/// Game 50 of 50 is free. The ticket that has won is finished and waits for its claim, the
/// one that has not is closed.
pub fn a_free_game_gives_nothing(flaw: Flaw) -> Check {
    let mut desk = Desk::new(flaw);
    let won = desk.straight(0, 50, 100, &[1]);
    let lost = desk.lucky_last(50, 100, 200, &[80]);
    desk.draw(&FIRST_TWENTY);
    for _game in 2..=49 {
        desk.draw(&[&FIRST_TWENTY[1..], &[21]].concat());
    }
    expect("held", desk.house.till()[5], 0)?;
    desk.draw(&FIRST_TWENTY[..10]);
    expect("call off", desk.call_off(), Answer::accepted(50, 0))?;
    expect("owed", desk.house.till()[4], 300)?;
    expect("lost", desk.claim(lost), Answer::refused(19))?;
    let days: Vec<_> = desk.house.tickets().iter().map(|ticket| ticket.finished_on).collect();
    expect("finishing days", days, vec![Some(1), Some(1)])?;
    expect("won", desk.pays(won), 300)?;
    desk.difference
}

/// Of 100 games the last two: paid for is the 98th.
pub fn two_free_games_are_called_off(flaw: Flaw) -> Check {
    let mut desk = Desk::new(flaw);
    desk.straight(0, 100, 100, &[80]);
    for _game in 1..=97 {
        desk.draw(&FIRST_TWENTY);
    }
    for (game, due, live) in [(98, 100, 1), (99, 0, 1), (100, 0, 1)] {
        expect("call off", desk.call_off(), Answer::accepted(game, due))?;
        expect("live", desk.house.live_tickets().count(), live)?;
        expect("owed and held", desk.house.till()[4..6].to_vec(), vec![100, 0])?;
    }
    expect("claim", desk.pays(1), 100)?;
    desk.difference
}

/// A jackpot ticket at $1 would give 25 cents, and with a win all pools would move.
pub fn no_pool_gains(flaw: Flaw) -> Check {
    let mut desk = Desk::new(flaw);
    desk.straight(1, 2, 100, &[1, 2, 3, 4, 5, 6]);
    desk.straight(1, 1, 300, &[1, 2, 3, 4, 5, 6, 7, 8]);
    let before = desk.house.pools().clone();
    desk.draw(&FIRST_TWENTY[..19]);
    expect("call off", desk.call_off(), Answer::accepted(1, 400))?;
    expect("pools", desk.house.pools(), &before)?;
    let till = [500, 1_350_000, 0, 0, 400, 100, 0, 1_350_000, 0];
    expect("till", desk.house.till(), till)?;
    // 15 cents of the second game's dollar.
    expect("second game", desk.draw(&FIRST_TWENTY), Answer::accepted(20, 100_015))?;
    expect("six", desk.pays(1), 100 + 100_015)?;
    expect("eight", desk.pays(2), 300)?;
    desk.difference
}

/// Four in a row without a draw between them, of which the last has no ticket.
pub fn games_are_called_off_in_a_row(flaw: Flaw) -> Check {
    let mut desk = Desk::new(flaw);
    let three = desk.straight(0, 3, 100, &[1]);
    let one = desk.straight(0, 1, 500, &[1]);
    for (game, due) in [(1, 600), (2, 100), (3, 100), (4, 0)] {
        expect("call off", desk.call_off(), Answer::accepted(game, due))?;
    }
    expect("game", desk.house.game(), 5)?;
    expect("one", desk.pays(one), 500)?;
    expect("three", desk.pays(three), 300)?;
    let next = desk.straight(0, 1, 100, &[1]);
    expect("first game", desk.house.tickets()[next as usize - 1].first_game(), 5)?;
    expect("fifth game", desk.draw(&FIRST_TWENTY), Answer::accepted(20, 300))?;
    expect("next", desk.pays(next), 300)?;
    desk.difference
}

/// Its first game is the next, which may be called off in its turn.
pub fn sold_while_drawing_it_is_not_in_it(flaw: Flaw) -> Check {
    let mut desk = Desk::new(flaw);
    desk.ball(1);
    let ticket = desk.straight(0, 2, 200, &[1]);
    expect("call off", desk.call_off(), Answer::accepted(1, 0))?;
    let till = [400, 1_350_000, 0, 0, 0, 400, 0, 1_350_000, 0];
    expect("till", desk.house.till(), till)?;
    expect("collect", desk.collect(ticket), Answer::refused(34))?;
    expect("call off the next", desk.call_off(), Answer::accepted(2, 200))?;
    expect("third game", desk.draw(&FIRST_TWENTY), Answer::accepted(20, 600))?;
    expect("claim", desk.pays(ticket), 200 + 600)?;
    desk.difference
}

/// The stake of the game called off is due and not refunded; the game that is current now
/// is not being drawn, and comes off.
pub fn a_cancel_leaves_the_game_called_off(flaw: Flaw) -> Check {
    let mut desk = Desk::new(flaw);
    let ticket = desk.straight(0, 5, 200, &[1]);
    let alone = desk.straight(0, 1, 200, &[1]);
    desk.ball(1);
    desk.call_off();
    expect("cancel", desk.cancel(ticket), Answer::accepted(ticket, 800))?;
    let till = [1_200, 1_350_000, 0, 800, 400, 0, 0, 1_350_000, 0];
    expect("till", desk.house.till(), till)?;
    expect("cancel again", desk.cancel(ticket), Answer::refused(22))?;
    expect("cancel of none", desk.cancel(alone), Answer::refused(22))?;
    expect("claim", desk.pays(ticket), 200)?;
    expect("cancel", desk.cancel(ticket), Answer::refused(19))?;
    desk.difference
}

/// Of the games one is left, which is being drawn: with it the last goes. A ticket without
/// any is closed already.
pub fn called_off_after_a_cancel(flaw: Flaw) -> Check {
    let mut desk = Desk::new(flaw);
    let gone = desk.straight(0, 2, 300, &[1]);
    desk.cancel(gone);
    let ticket = desk.straight(0, 5, 200, &[1]);
    desk.draw(&FIRST_TWENTY[..3]);
    expect("cancel", desk.cancel(ticket), Answer::accepted(ticket, 800))?;
    expect("call off", desk.call_off(), Answer::accepted(1, 200))?;
    expect("finishing day", desk.house.tickets()[1].finished_on, Some(1))?;
    expect("next game", desk.draw(&FIRST_TWENTY), Answer::accepted(20, 0))?;
    expect("claim", desk.pays(ticket), 200)?;
    desk.difference
}

/// 50 games, the first of which is called off without a ball; 49 games are none.
pub fn a_keno_to_go_begins(flaw: Flaw) -> Check {
    for balls_in in [0, 7] {
        let mut desk = Desk::new(flaw);
        let to_go = desk.straight(0, 50, 100, &[1]);
        let few = desk.straight(0, 49, 100, &[1]);
        for number in &FIRST_TWENTY[..balls_in] {
            desk.ball(*number);
        }
        desk.call_off();
        expect("cancel", desk.cancel(to_go), Answer::refused(21))?;
        expect("cancel of 49 games", desk.cancel(few), Answer::accepted(few, 4_800))?;
        expect("collect", desk.collect(to_go), Answer::accepted(3, 100))?;
        expect("cancel of the new one", desk.cancel(3), Answer::refused(21))?;
        desk.difference?;
    }
    Ok(())
}

/// Nothing of it was called off: all 49 paid games come back. Of two, the one that waits
/// until its own first game is called off has begun.
pub fn a_keno_to_go_has_not_begun(flaw: Flaw) -> Check {
    let mut desk = Desk::new(flaw);
    desk.ball(1);
    let [first, second] = [desk.straight(0, 50, 100, &[1]), desk.straight(0, 50, 100, &[1])];
    desk.call_off();
    expect("cancel", desk.cancel(first), Answer::accepted(first, 4_900))?;
    expect("call off the next", desk.call_off(), Answer::accepted(2, 100))?;
    expect("cancel of the second", desk.cancel(second), Answer::refused(21))?;
    desk.difference
}

/// Four games: won, called off, lost, called off.
pub fn a_claim_pays_stakes_beside_prizes(flaw: Flaw) -> Check {
    let mut desk = Desk::new(flaw);
    let ticket = desk.straight(0, 4, 100, &[1]);
    desk.draw(&FIRST_TWENTY);
    expect("call off", desk.call_off(), Answer::accepted(2, 100))?;
    desk.draw(&LAST_TWENTY);
    expect("claim", desk.claim(ticket), Answer::refused(23))?;
    desk.draw(&FIRST_TWENTY[..19]);
    expect("call off the last", desk.call_off(), Answer::accepted(4, 100))?;
    let till = [400, 1_350_000, 0, 0, 500, 0, 0, 1_350_000, 200 - 300];
    expect("till", desk.house.till(), till)?;
    expect("claim", desk.pays(ticket), 300 + 2 * 100)?;
    desk.difference
}

/// Without a win: 34 before, and no more after it. Then beside a win.
pub fn a_collection_pays_a_game_called_off(flaw: Flaw) -> Check {
    let mut desk = Desk::new(flaw);
    let ticket = desk.straight(0, 4, 100, &[1]);
    expect("collect", desk.collect(ticket), Answer::refused(34))?;
    desk.call_off();
    expect("collect", desk.collect(ticket), Answer::accepted(2, 100))?;
    let till = [400, 1_350_000, 100, 0, 0, 300, 0, 1_350_000, 0];
    expect("till", desk.house.till(), till)?;
    expect("collect at once", desk.collect(2), Answer::refused(34))?;
    expect("second game", desk.draw(&FIRST_TWENTY), Answer::accepted(20, 300))?;
    expect("call off", desk.call_off(), Answer::accepted(3, 100))?;
    expect("collect both", desk.collect(2), Answer::accepted(3, 400))?;
    expect("old number", desk.claim(ticket), Answer::refused(19))?;
    expect("cancel", desk.cancel(3), Answer::accepted(3, 100))?;
    desk.difference
}

/// Collected while game 2 is being drawn: its stake is due on the new number alone, and
/// the last game of 50 stays the free one.
pub fn the_new_numbers_game_is_called_off(flaw: Flaw) -> Check {
    let mut desk = Desk::new(flaw);
    let ticket = desk.straight(0, 50, 100, &[1]);
    desk.draw(&FIRST_TWENTY);
    desk.draw(&FIRST_TWENTY[..6]);
    expect("collect", desk.collect(ticket), Answer::accepted(2, 300))?;
    expect("call off", desk.call_off(), Answer::accepted(2, 100))?;
    let due: Vec<_> = desk.house.tickets().iter().map(|ticket| ticket.due()).collect();
    expect("dues", due, vec![300, 100])?;
    for game in 3..=49 {
        expect("call off", desk.call_off(), Answer::accepted(game, 100))?;
    }
    expect("call off the free game", desk.call_off(), Answer::accepted(50, 0))?;
    expect("claim", desk.pays(2), 48 * 100)?;
    desk.difference
}

/// Called off on 1 January 1998, so that it stands through day 366; a ticket with a game
/// left stays, whatever is due.
pub fn what_is_due_expires(flaw: Flaw) -> Check {
    let mut desk = Desk::new(flaw);
    let ticket = desk.straight(0, 1, 200, &[1]);
    desk.straight(0, 2, 100, &[1]);
    desk.ball(7);
    desk.call_off();
    desk.open(366);
    expect("expire", desk.expire(), Answer::accepted(0, 0))?;
    desk.open(367);
    expect("expire a day later", desk.expire(), Answer::accepted(1, 200))?;
    expect("claim", desk.claim(ticket), Answer::refused(19))?;
    expect("transfer", desk.transfer(6, 200), Answer::accepted(6, 100_200))?;
    let till = [400, 1_350_000, 0, 0, 100, 100, 0, 1_350_200, 0];
    expect("till", desk.house.till(), till)?;
    desk.difference
}

/// Open and Transfer are refused while drawing, and not after; a sale is for the game that
/// is current now.
pub fn nobody_draws_any_more(flaw: Flaw) -> Check {
    let mut desk = Desk::new(flaw);
    desk.straight(0, 1, 100, &[1]);
    desk.draw(&FIRST_TWENTY);
    desk.open(400);
    desk.expire();
    desk.draw(&FIRST_TWENTY[..19]);
    expect("open", desk.open(401), Answer::refused(6))?;
    expect("transfer", desk.transfer(8, 100), Answer::refused(6))?;
    expect("call off", desk.call_off(), Answer::accepted(2, 0))?;
    expect("transfer", desk.transfer(8, 100), Answer::accepted(8, 1_250_100))?;
    let ticket = desk.straight(0, 1, 100, &[1]);
    expect("first game", desk.house.tickets()[1].first_game(), 3)?;
    expect("cancel", desk.cancel(ticket), Answer::accepted(ticket, 100))?;
    expect("open", desk.open(401), Answer::accepted(401, 0))?;
    desk.difference
}
