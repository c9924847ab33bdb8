//! "Traps": settling first + games as well; pooling at sale, so that a cancel
//! leaves money behind; cutting once, leaving prizes under $200; capping a
//! jackpot ticket. Beside them the places next to the traps.

use super::*;
use reference::prizes::cut;

pub const ALL: &[NamedCheck] = &[
    ("games 93 to 97 end at 97", games_93_to_97_end_at_97),
    ("five games pay five times", five_games_pay_five_times),
    ("a cancel leaves nothing in the pools", a_cancel_leaves_nothing_in_the_pools),
    ("each drawn game contributes by itself", each_drawn_game_contributes_by_itself),
    ("cut again until none is under $200", cut_again_until_none_is_under_200_dollars),
    ("a jackpot ticket's prize is not capped", a_jackpot_tickets_prize_is_not_capped),
    ("a jackpot share is not capped", a_jackpot_share_is_not_capped),
    ("other kinds are capped", other_kinds_are_capped),
    ("odd cents of one stake go to the first ways", odd_cents_of_one_stake_go_to_the_first_ways),
    ("equal stakes by ticket number", equal_stakes_by_ticket_number),
    ("odd cents end among the larger ways", odd_cents_end_among_the_larger_ways),
    ("odd cents pass on to smaller ways", odd_cents_pass_on_to_smaller_ways),
    ("free games play but give none", free_games_play_but_give_none),
    ("the live list rises", the_live_list_rises),
];

const EIGHT: [u8; 8] = [1, 2, 3, 4, 5, 6, 7, 8];
const SIX: [u8; 6] = [1, 2, 3, 4, 5, 6];
/// Three at a time they make ten ways of six, and the first four of them four.
const PAIRS: Groups = &[&[1, 2], &[3, 4], &[5, 6], &[7, 8], &[9, 10]];
/// Two at a time they make three.
const TRIPLETS: Groups = &[&[1, 2, 3], &[4, 5, 6], &[7, 8, 9]];
const FIFTEEN: [u8; 15] = [1, 2, 3, 4, 5, 6, 7, 8, 9, 10, 11, 12, 13, 14, 15];

/// The foreman's fear: a ticket for games 93 to 97 takes nothing from 98, where
/// two true winners of 5,000,000 are cut to 2,500,000.
pub fn games_93_to_97_end_at_97(flaw: Flaw) -> Check {
    let mut desk = Desk::new(flaw);
    for _game in 1..=92 {
        desk.draw(&LAST_TWENTY);
    }
    // $1,000 for 6 of 6 in each of five games, 200,000 at stake 200.
    let ticket = desk.straight(0, 5, 200, &SIX);
    for _game in 93..=97 {
        desk.draw(&FIRST_TWENTY);
    }
    expect("game after 97", desk.house.game(), 98)?;
    let winners = [desk.straight(0, 1, 100, &FIFTEEN), desk.straight(0, 1, 100, &FIFTEEN)];
    expect("game 98", desk.draw(&FIRST_TWENTY).cents, 5_000_000)?;
    for winner in winners {
        expect("true winner", desk.pays(winner), 2_500_000)?;
    }
    expect("games 93 to 97", desk.pays(ticket), 5 * 200_000)?;
    desk.difference
}

/// $3 for 1 of 1, won in every game drawn.
pub fn five_games_pay_five_times(flaw: Flaw) -> Check {
    let mut desk = Desk::new(flaw);
    let ticket = desk.straight(0, 5, 100, &[1]);
    for _game in 1..=5 {
        expect("a game", desk.draw(&FIRST_TWENTY).cents, 300)?;
    }
    expect("sixth game", desk.draw(&FIRST_TWENTY).cents, 0)?;
    expect("claim", desk.pays(ticket), 1_500)?;
    desk.difference
}

pub fn a_cancel_leaves_nothing_in_the_pools(flaw: Flaw) -> Check {
    let mut desk = Desk::new(flaw);
    let fresh = desk.house.pools().clone();
    let six = desk.straight(1, 10, 100, &SIX);
    let eight = desk.straight(1, 10, 300, &EIGHT);
    expect("pools after the sale", desk.house.pools(), &fresh)?;
    expect("held", desk.house.till()[5], 4_000)?;
    expect("refund", desk.cancel(six).cents, 1_000)?;
    expect("refund", desk.cancel(eight).cents, 3_000)?;
    expect("pools after the cancel", desk.house.pools(), &fresh)?;
    expect("till", desk.house.till(), [4_000, 1_350_000, 0, 4_000, 0, 0, 0, 1_350_000, 0])?;
    desk.difference
}

/// Two games of ten are drawn: 15, 5 and 5 cents each time, and reimbursement
/// pays the house at once.
pub fn each_drawn_game_contributes_by_itself(flaw: Flaw) -> Check {
    let mut desk = Desk::new(flaw);
    let ticket = desk.straight(1, 10, 100, &SIX);
    desk.draw(&LAST_TWENTY);
    desk.draw(&LAST_TWENTY);
    let six = desk.house.pools().six.clone();
    expect("pools", (six.primary, six.secondary, six.reimbursement), (100_030, 10, 0))?;
    expect("debt", six.debt, 99_990)?;
    expect("refund", desk.cancel(ticket).cents, 800)?;
    expect("pools", &desk.house.pools().six, &six)?;
    // 200 played, 50 of it given to the jackpot, 10 of that paid back.
    expect("till", desk.house.till(), [1_000, 1_350_000, 0, 800, 0, 0, 0, 1_350_040, 160])?;
    desk.difference
}

/// Three of 5,000,000, one of 70,000 and a hundred of 20,000. By the first
/// round 70,000 would keep 20,503; with the hundred floored it falls to 13,935
/// and joins them.
pub fn cut_again_until_none_is_under_200_dollars(flaw: Flaw) -> Check {
    let mut majors = vec![5_000_000, 5_000_000, 5_000_000, 70_000];
    majors.extend([20_000; 100]);
    let cut = cut(&majors, flaw);
    expect("smallest", *cut.prizes.iter().min().expect("a prize"), 20_000)?;
    expect("rounds and floored", (cut.rounds, cut.floored), (2, 101))?;

    let mut desk = Desk::new(flaw);
    let caps: Vec<u32> = (0..3).map(|_| desk.straight(0, 1, 100, &FIFTEEN)).collect();
    // $50 for 7 of 10 at $14, and $200 for 8 of 11.
    let middle = desk.straight(0, 1, 1_400, &[1, 2, 3, 4, 5, 6, 7, 78, 79, 80]);
    let eights = [1, 2, 3, 4, 5, 6, 7, 8, 78, 79, 80];
    let floored: Vec<u32> = (0..100).map(|_| desk.straight(0, 1, 100, &eights)).collect();
    desk.draw(&FIRST_TWENTY);
    expect("middle", desk.pays(middle), 20_000)?;
    for ticket in floored {
        expect("floored", desk.pays(ticket), 20_000)?;
    }
    for ticket in caps {
        expect("cap", desk.pays(ticket), 993_333)?;
    }
    desk.difference
}

/// 7 of 8 at $200 on a jackpot ticket is 11,100,000, and beside a prize of
/// 5,000,000 the cut goes by that.
pub fn a_jackpot_tickets_prize_is_not_capped(flaw: Flaw) -> Check {
    let mut desk = Desk::new(flaw);
    let jackpot = desk.straight(1, 1, 20_000, &[1, 2, 3, 4, 5, 6, 7, 80]);
    let other = desk.straight(0, 1, 100, &FIFTEEN);
    desk.draw(&FIRST_TWENTY);
    expect("jackpot ticket", desk.pays(jackpot), 3_447_204)?;
    expect("other ticket", desk.pays(other), 1_552_795)?;
    desk.difference
}

/// 26 dearest eights, of which one hits, and a prize of exactly 5,000,000
/// beside it: the share is paid whole and counts for no cut.
pub fn a_jackpot_share_is_not_capped(flaw: Flaw) -> Check {
    let mut desk = Desk::new(flaw);
    let winner = desk.straight(1, 1, 999_900, &EIGHT);
    for _ticket in 1..26 {
        desk.straight(1, 1, 999_900, &[1, 2, 61, 62, 63, 64, 65, 66]);
    }
    let other = desk.straight(0, 1, 100, &FIFTEEN);
    let share = 1_250_000 + 26 * 149_985;
    expect("twentieth ball", desk.draw(&FIRST_TWENTY).cents, share + 5_000_000)?;
    expect("share", desk.pays(winner), share)?;
    expect("prize", desk.pays(other), 5_000_000)?;
    // 26 × 49,995 in the secondary pass the guarantee: no seed is wanted.
    let eight = &desk.house.pools().eight;
    expect("pools", (eight.primary, eight.secondary, eight.reimbursement), (1_299_870, 0, 49_870))?;
    expect("seeds and debt", (desk.house.till()[1], eight.debt), (1_350_000, 0))?;
    desk.difference
}

/// 15 of 15 at $2 would be $100,000, and is $50,000.
pub fn other_kinds_are_capped(flaw: Flaw) -> Check {
    let mut desk = Desk::new(flaw);
    let capped = desk.straight(0, 1, 200, &FIFTEEN);
    let cap = desk.straight(0, 1, 100, &FIFTEEN);
    desk.draw(&FIRST_TWENTY);
    expect("capped", desk.pays(capped), 2_500_000)?;
    expect("cap", desk.pays(cap), 2_500_000)?;
    desk.difference
}

/// Four winning ways on the first ticket and three on the second share
/// 100,000 + 7 × 15 = 100,105: 14,300 each and 5 odd cents.
pub fn odd_cents_of_one_stake_go_to_the_first_ways(flaw: Flaw) -> Check {
    let mut desk = Desk::new(flaw);
    let four_ways = desk.sell(1, 1, 100, &PAIRS[..4], 0b100).number;
    let three_ways = desk.sell(1, 1, 100, TRIPLETS, 0b10).number;
    expect("twentieth ball", desk.draw(&FIRST_TWENTY).cents, 100_105)?;
    expect("four ways", desk.pays(four_ways), 4 * 14_300 + 4)?;
    expect("three ways", desk.pays(three_ways), 3 * 14_300 + 1)?;
    desk.difference
}

/// One six at 100 and then three at 200 share 100,105: a seventh is 14,300 and a
/// bit, two are 28,601 and a bit, and 2 cents are odd.
pub fn equal_stakes_by_ticket_number(flaw: Flaw) -> Check {
    let mut desk = Desk::new(flaw);
    let tickets = [100, 200, 200, 200].map(|stake| desk.straight(1, 1, stake, &SIX));
    expect("twentieth ball", desk.draw(&FIRST_TWENTY).cents, 100_105)?;
    for (ticket, share) in tickets.into_iter().zip([14_300, 28_602, 28_602, 28_601]) {
        expect(&format!("ticket {ticket}"), desk.pays(ticket), share)?;
    }
    desk.difference
}

/// Three ways at 100, four at 300 and one at 200 share 100,255: 2 odd cents, both
/// for ways of the second ticket.
pub fn odd_cents_end_among_the_larger_ways(flaw: Flaw) -> Check {
    let mut desk = Desk::new(flaw);
    let three_ways = desk.sell(1, 1, 100, TRIPLETS, 0b10).number;
    let four_ways = desk.sell(1, 1, 300, &PAIRS[..4], 0b100).number;
    let one_way = desk.straight(1, 1, 200, &SIX);
    expect("twentieth ball", desk.draw(&FIRST_TWENTY).cents, 100_255)?;
    expect("at 100", desk.pays(three_ways), 3 * 5_897)?;
    expect("at 300", desk.pays(four_ways), 4 * 17_692 + 2)?;
    expect("at 200", desk.pays(one_way), 11_794)?;
    desk.difference
}

/// Ten ways at 200, three at 300 and one at 500 share 100,510: of 6 odd cents the
/// last ticket has one and the second three, one a way, and the first has the rest,
/// though it cost the most.
pub fn odd_cents_pass_on_to_smaller_ways(flaw: Flaw) -> Check {
    let mut desk = Desk::new(flaw);
    let ten_ways = desk.sell(1, 1, 200, PAIRS, 0b100);
    expect("charge", ten_ways.cents, 2_000)?;
    let three_ways = desk.sell(1, 1, 300, TRIPLETS, 0b10).number;
    let one_way = desk.straight(1, 1, 500, &SIX);
    expect("twentieth ball", desk.draw(&FIRST_TWENTY).cents, 100_510)?;
    expect("at 200", desk.pays(ten_ways.number), 10 * 5_912 + 2)?;
    expect("at 300", desk.pays(three_ways), 3 * 8_868 + 3)?;
    expect("at 500", desk.pays(one_way), 14_780 + 1)?;
    desk.difference
}

/// 50 games of which the last is free: it gives the jackpot nothing, and wins
/// it.
pub fn free_games_play_but_give_none(flaw: Flaw) -> Check {
    let mut desk = Desk::new(flaw);
    let ticket = desk.straight(1, 50, 100, &SIX);
    for _game in 1..=49 {
        desk.draw(&LAST_TWENTY);
    }
    let primary = 100_000 + 49 * 15;
    expect("primary after 49", desk.house.pools().six.primary, primary)?;
    expect("held after 49", desk.house.till()[5], 0)?;
    expect("free game", desk.draw(&FIRST_TWENTY).cents, primary as u64)?;
    expect("claim", desk.pays(ticket), primary as u64)?;
    desk.difference
}

/// Of four tickets the third is cancelled.
pub fn the_live_list_rises(flaw: Flaw) -> Check {
    let mut desk = Desk::new(flaw);
    for _ticket in 1..=4 {
        desk.straight(0, 1, 100, &[1]);
    }
    desk.cancel(3);
    let mut buffer = [7; 14];
    expect("live tickets", desk.house.live_list(&mut buffer), Ok(3))?;
    expect("buffer", buffer, [0, 0, 0, 1, 0, 0, 0, 2, 0, 0, 0, 4, 7, 7])?;
    desk.difference
}
