//! "Collecting part way": what is due is paid, the number closes, and the games left
//! are the next number's, paid and free ones as before, with the old sale day.

use super::*;

pub const ALL: &[NamedCheck] = &[
    ("a guest collects part way", a_guest_collects_part_way),
    ("a collected number is closed", a_collected_number_is_closed),
    ("what was collected is not due again", what_was_collected_is_not_due_again),
    ("collections one after another", collections_one_after_another),
    ("a reissued ticket keeps its day of sale", a_reissued_ticket_keeps_its_day_of_sale),
    ("a reissued ticket is cancelled", a_reissued_ticket_is_cancelled),
    ("a reissued Keno To Go has begun", a_reissued_keno_to_go_has_begun),
    ("free games stay the last ones", free_games_stay_the_last_ones),
    ("free games of a jackpot ticket give none", free_games_of_a_jackpot_ticket_give_none),
    ("the game being drawn goes to the new number", the_game_being_drawn_goes_along),
    ("only the game being drawn is left", only_the_game_being_drawn_is_left),
    ("a feature goes along", a_feature_goes_along),
    ("odd cents by the new number", odd_cents_by_the_new_number),
    ("a reissued ticket expires", a_reissued_ticket_expires),
    ("200 live tickets collect", two_hundred_live_tickets_collect),
];

/// Three games at $1, of which the first and the third are won. Till by till.
pub fn a_guest_collects_part_way(flaw: Flaw) -> Check {
    let mut desk = Desk::new(flaw);
    let ticket = desk.straight(0, 3, 100, &[1]);
    desk.draw(&FIRST_TWENTY);
    let till = [300, 1_350_000, 0, 0, 300, 200, 0, 1_350_000, 100 - 300];
    expect("till before", desk.house.till(), till)?;
    expect("collect", desk.collect(ticket), Answer::accepted(2, 300))?;
    let till = [300, 1_350_000, 300, 0, 0, 200, 0, 1_350_000, 100 - 300];
    expect("till after", desk.house.till(), till)?;
    desk.draw(&LAST_TWENTY);
    desk.draw(&FIRST_TWENTY);
    expect("claim", desk.pays(2), 300)?;
    let till = [300, 1_350_000, 600, 0, 0, 0, 0, 1_350_000, 300 - 600];
    expect("till at the end", desk.house.till(), till)?;
    desk.difference
}

pub fn a_collected_number_is_closed(flaw: Flaw) -> Check {
    let mut desk = Desk::new(flaw);
    for _ticket in 1..=3 {
        desk.straight(0, 2, 100, &[1]);
    }
    desk.draw(&FIRST_TWENTY);
    expect("collect", desk.collect(2), Answer::accepted(4, 300))?;
    let mut buffer = [7; 16];
    expect("live tickets", desk.house.live_list(&mut buffer), Ok(3))?;
    expect("buffer", buffer, [0, 0, 0, 1, 0, 0, 0, 3, 0, 0, 0, 4, 7, 7, 7, 7])?;
    expect("collect again", desk.collect(2), Answer::refused(19))?;
    expect("cancel", desk.cancel(2), Answer::refused(19))?;
    expect("claim", desk.claim(2), Answer::refused(19))?;
    expect("its game is played once", desk.draw(&FIRST_TWENTY).cents, 900)?;
    desk.difference
}

/// The games left are lost, and the new number closes by itself.
pub fn what_was_collected_is_not_due_again(flaw: Flaw) -> Check {
    let mut desk = Desk::new(flaw);
    let ticket = desk.straight(0, 2, 100, &[1]);
    desk.draw(&FIRST_TWENTY);
    desk.collect(ticket);
    expect("owed", desk.house.till()[4], 0)?;
    expect("collect at once", desk.collect(2), Answer::refused(34))?;
    desk.draw(&LAST_TWENTY);
    expect("claim", desk.claim(2), Answer::refused(19))?;
    expect("live tickets", desk.house.live_tickets().count(), 0)?;
    desk.difference
}

/// Five games, all won: four collections and a claim.
pub fn collections_one_after_another(flaw: Flaw) -> Check {
    let mut desk = Desk::new(flaw);
    desk.straight(0, 5, 200, &[1]);
    for number in 1..=4 {
        expect("game", desk.draw(&FIRST_TWENTY), Answer::accepted(20, 600))?;
        expect("collect", desk.collect(number), Answer::accepted(number + 1, 600))?;
        expect(
            "owed and held",
            desk.house.till()[4..6].to_vec(),
            vec![0, 1_000 - 200 * i128::from(number)],
        )?;
    }
    expect("last game", desk.draw(&FIRST_TWENTY), Answer::accepted(20, 600))?;
    expect("collect", desk.collect(5), Answer::refused(33))?;
    expect("claim", desk.pays(5), 600)?;
    expect("sixth game", desk.draw(&FIRST_TWENTY).cents, 0)?;
    desk.difference
}

/// Sold on day 1 and collected on day 2.
pub fn a_reissued_ticket_keeps_its_day_of_sale(flaw: Flaw) -> Check {
    let mut desk = Desk::new(flaw);
    let ticket = desk.straight(0, 4, 100, &[1]);
    desk.draw(&FIRST_TWENTY);
    desk.open(2);
    expect("collect", desk.collect(ticket), Answer::accepted(2, 300))?;
    expect("cancel", desk.cancel(2), Answer::refused(20))?;
    desk.draw(&FIRST_TWENTY);
    expect("collect", desk.collect(2), Answer::accepted(3, 300))?;
    expect("cancel", desk.cancel(3), Answer::refused(20))?;
    desk.difference
}

/// On its day of sale: what is refunded is what was paid for the games left, be it
/// before the next draw or while drawing, and after games came off already.
pub fn a_reissued_ticket_is_cancelled(flaw: Flaw) -> Check {
    let mut desk = Desk::new(flaw);
    let whole = desk.straight(0, 49, 200, &[1]);
    let drawing = desk.straight(0, 5, 300, &[1]);
    desk.draw(&FIRST_TWENTY);
    expect("collect", desk.collect(whole), Answer::accepted(3, 600))?;
    expect("cancel", desk.cancel(3), Answer::accepted(3, 48 * 200))?;
    expect("nothing is due", desk.claim(3), Answer::refused(19))?;
    desk.ball(1);
    expect("cancel, then", desk.cancel(drawing), Answer::accepted(drawing, 900))?;
    expect("collect", desk.collect(drawing), Answer::accepted(4, 900))?;
    expect("cancel again", desk.cancel(4), Answer::refused(22))?;
    expect("twentieth ball", desk.draw(&FIRST_TWENTY[1..]), Answer::accepted(20, 900))?;
    expect("collect", desk.collect(4), Answer::refused(33))?;
    expect("claim", desk.pays(4), 900)?;
    let refunded = 48 * 200 + 900;
    let till = [11_300, 1_350_000, 2_400, refunded, 0, 0, 0, 1_350_000, 800 - 2_400];
    expect("till", desk.house.till(), till)?;
    desk.difference
}

/// 50 games as sold, of which 49 and then 2 are left; on the day of the sale, and on a
/// later day, which is checked first. One of 49 games is none.
pub fn a_reissued_keno_to_go_has_begun(flaw: Flaw) -> Check {
    let mut desk = Desk::new(flaw);
    let begun = desk.straight(0, 50, 100, &[1]);
    let few = desk.straight(0, 49, 100, &[1]);
    desk.draw(&FIRST_TWENTY);
    expect("collect", desk.collect(begun), Answer::accepted(3, 300))?;
    expect("collect", desk.collect(few), Answer::accepted(4, 300))?;
    expect("cancel", desk.cancel(3), Answer::refused(21))?;
    for _game in 2..=48 {
        desk.draw(&FIRST_TWENTY);
    }
    expect("collect", desk.collect(3), Answer::accepted(5, 47 * 300))?;
    expect("cancel of two games", desk.cancel(5), Answer::refused(21))?;
    expect("cancel of one game", desk.cancel(4), Answer::accepted(4, 100))?;
    desk.open(2);
    desk.draw(&FIRST_TWENTY);
    expect("collect", desk.collect(5), Answer::accepted(6, 300))?;
    expect("cancel on a later day", desk.cancel(6), Answer::refused(20))?;
    desk.difference
}

/// Of 100 games two are free, of 50 one: by the games as sold, whatever is left.
pub fn free_games_stay_the_last_ones(flaw: Flaw) -> Check {
    let mut desk = Desk::new(flaw);
    desk.straight(0, 100, 100, &[1]);
    desk.straight(0, 50, 100, &[1]);
    let held = |desk: &Desk| desk.house.till()[5];
    for (game, hundred, fifty) in [(1, 97, 48), (40, 58, 9), (49, 49, 0), (50, 48, 0)] {
        while desk.house.game() <= game {
            desk.draw(&FIRST_TWENTY);
        }
        let due = desk.house.live_tickets().filter(|ticket| !ticket.is_finished());
        let due: Vec<u32> = due.map(|ticket| ticket.number).collect();
        for ticket in due {
            expect("collect", desk.collect(ticket).code, 0)?;
        }
        expect(&format!("held after game {game}"), held(&desk), 100 * (hundred + fifty))?;
    }
    while desk.house.game() <= 98 {
        desk.draw(&LAST_TWENTY);
    }
    expect("held before the free games", held(&desk), 0)?;
    expect("free game", desk.draw(&FIRST_TWENTY), Answer::accepted(20, 300))?;
    expect("last free game", desk.draw(&FIRST_TWENTY), Answer::accepted(20, 300))?;
    expect("game after", desk.draw(&FIRST_TWENTY), Answer::accepted(20, 0))?;
    desk.difference
}

/// A six is hit in the first game and in the last, which is free and gives nothing.
pub fn free_games_of_a_jackpot_ticket_give_none(flaw: Flaw) -> Check {
    let mut desk = Desk::new(flaw);
    let ticket = desk.straight(1, 50, 100, &[1, 2, 3, 4, 5, 6]);
    expect("first game", desk.draw(&FIRST_TWENTY), Answer::accepted(20, 100_015))?;
    expect("collect", desk.collect(ticket), Answer::accepted(2, 100_015))?;
    for _game in 2..=49 {
        desk.draw(&LAST_TWENTY);
    }
    let primary = 100_000 + 48 * 15;
    expect("primary", desk.house.pools().six.primary, primary)?;
    expect("free game", desk.draw(&FIRST_TWENTY), Answer::accepted(20, primary as u64))?;
    expect("claim", desk.pays(2), primary as u64)?;
    desk.difference
}

/// With one ball in, and with nineteen.
pub fn the_game_being_drawn_goes_along(flaw: Flaw) -> Check {
    for balls_in in [1, 19] {
        let mut desk = Desk::new(flaw);
        let ticket = desk.straight(0, 3, 100, &[1]);
        desk.draw(&FIRST_TWENTY);
        desk.draw(&FIRST_TWENTY[..balls_in]);
        expect("collect", desk.collect(ticket), Answer::accepted(2, 300))?;
        expect("held", desk.house.till()[5], 200)?;
        expect("twentieth ball", desk.draw(&FIRST_TWENTY[balls_in..]).cents, 300)?;
        expect("third game", desk.draw(&FIRST_TWENTY).cents, 300)?;
        expect("claim", desk.pays(2), 600)?;
        desk.difference?;
    }
    Ok(())
}

/// Of two games the second, won and lost.
pub fn only_the_game_being_drawn_is_left(flaw: Flaw) -> Check {
    for (balls, won, code) in [(FIRST_TWENTY, 300, 0), (LAST_TWENTY, 0, 19)] {
        let mut desk = Desk::new(flaw);
        let ticket = desk.straight(0, 2, 100, &[1]);
        desk.draw(&FIRST_TWENTY);
        desk.draw(&balls[..7]);
        expect("collect", desk.collect(ticket), Answer::accepted(2, 300))?;
        expect("cancel", desk.cancel(2), Answer::refused(22))?;
        expect("claim", desk.claim(2), Answer::refused(23))?;
        expect("twentieth ball", desk.draw(&balls[7..]).cents, won)?;
        expect("claim", desk.claim(2).code, code)?;
        desk.difference?;
    }
    Ok(())
}

/// $1 on number 20 and $2 on the last ball, which it is in both games.
pub fn a_feature_goes_along(flaw: Flaw) -> Check {
    let mut desk = Desk::new(flaw);
    let ticket = desk.lucky_last(5, 100, 200, &[20]);
    desk.draw(&FIRST_TWENTY);
    expect("collect", desk.collect(ticket), Answer::accepted(2, 300 + 12_000))?;
    expect("held", desk.house.till()[5], 4 * 300)?;
    expect("second game", desk.draw(&FIRST_TWENTY).cents, 300 + 12_000)?;
    expect("cancel", desk.cancel(2), Answer::accepted(2, 3 * 300))?;
    expect("claim", desk.pays(2), 300 + 12_000)?;
    desk.difference
}

/// Three sixes at one stake share 100,000 and what joined it. The first is reissued
/// as the last, and the odd cents go to the other two.
pub fn odd_cents_by_the_new_number(flaw: Flaw) -> Check {
    let mut desk = Desk::new(flaw);
    for _ticket in 1..=3 {
        desk.straight(1, 2, 100, &[1, 2, 3, 4, 5, 6]);
    }
    // 100,045 in three: 33,348 each and one cent.
    expect("first game", desk.draw(&FIRST_TWENTY).cents, 100_045)?;
    expect("collect", desk.collect(1), Answer::accepted(4, 33_349))?;
    expect("second game", desk.draw(&FIRST_TWENTY).cents, 100_045)?;
    expect("ticket 2", desk.pays(2), 33_348 + 33_349)?;
    expect("ticket 3", desk.pays(3), 2 * 33_348)?;
    expect("ticket 4", desk.pays(4), 33_348)?;
    desk.difference
}

/// Collected on 1 January 1998, finished on the 2nd: it stands through the 2nd a year
/// on, day 367. The old number finished with nothing due, and never expires.
pub fn a_reissued_ticket_expires(flaw: Flaw) -> Check {
    let mut desk = Desk::new(flaw);
    let ticket = desk.straight(0, 2, 100, &[1]);
    desk.draw(&FIRST_TWENTY);
    expect("collect", desk.collect(ticket), Answer::accepted(2, 300))?;
    desk.open(2);
    desk.draw(&FIRST_TWENTY);
    desk.open(367);
    expect("expire", desk.expire(), Answer::accepted(0, 0))?;
    desk.open(368);
    expect("expire a day later", desk.expire(), Answer::accepted(1, 300))?;
    expect("claim", desk.claim(2), Answer::refused(19))?;
    expect("paid and unclaimed", (desk.house.till()[2], desk.house.till()[6]), (300, 300))?;
    desk.difference
}

/// Each of them, though none may be sold.
pub fn two_hundred_live_tickets_collect(flaw: Flaw) -> Check {
    let mut desk = Desk::new(flaw);
    for _ticket in 1..=200 {
        desk.straight(0, 2, 100, &[1]);
    }
    desk.draw(&FIRST_TWENTY);
    for ticket in 1..=200 {
        expect("sale", desk.sell(0, 1, 100, &[&[1]], STRAIGHT).code, 16)?;
        expect("collect", desk.collect(ticket), Answer::accepted(ticket + 200, 300))?;
        expect("live tickets", desk.house.live_tickets().count(), 200)?;
    }
    expect("second game", desk.draw(&FIRST_TWENTY).cents, 200 * 300)?;
    desk.difference
}
