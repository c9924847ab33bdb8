//! Document 01's printed roll and settled examples on the proved core alone,
//! with the document's own figures, the dates of a year by the calendar, the last
//! ball of a ticket with a feature, odd jackpot cents by stake, a ticket that is collected
//! part way, and a game called off.

use reference::roll::{read_answer, ANSWER_BYTES};
use reference::{Answer, Command, Sale};
use wulipday::{Lounge, Refusal, Stop, Till};

/// A day on which tickets are sold, drawn and claimed.
struct Desk {
    lounge: Lounge,
}

impl Desk {
    fn on_day_one() -> Desk {
        let mut desk = Desk { lounge: Lounge::fresh() };
        desk.give(Command::Open { day: 1 });
        desk
    }

    /// One command, which is a roll of one command.
    fn give(&mut self, command: Command) -> Answer {
        let mut book = [0; ANSWER_BYTES];
        let roll = command.encode();
        let report = self.lounge.roll(&roll, &mut book);
        assert_eq!((report.stop, report.read, report.answers), (Stop::End, roll.len(), 1));
        let (byte, answer) = read_answer(&book);
        assert_eq!(byte, roll[0]);
        answer
    }

    /// A ticket of one way; answers its number.
    fn straight(&mut self, kind: u8, stake: u32, numbers: &[u8]) -> u32 {
        let answer = self.give(Command::sell(kind, 1, stake, &[numbers], 1));
        assert_eq!(answer.code, 0);
        answer.number
    }

    /// One group with a feature; answers its number.
    fn lucky_last(&mut self, games: u8, stake: u32, feature_stake: u32, numbers: &[u8]) -> u32 {
        let answer = self.give(Command::lucky_last(games, stake, feature_stake, numbers));
        assert_eq!(answer.code, 0);
        answer.number
    }

    /// Balls 1 to 20; answers the cents of the last.
    fn draw(&mut self) -> u64 {
        self.draw_up_to(20)
    }

    /// Balls 61 to 80 and others from there down, but not this number; answers the cents of
    /// the last.
    fn draw_without(&mut self, number: u8) -> u64 {
        let balls = (1..=80).rev().filter(|&ball| ball != number).take(20);
        let answers = balls.map(|number| self.give(Command::Ball { number }));
        answers.last().expect("twenty balls").cents
    }

    /// Balls 1 to 20, this one the last; answers its cents.
    fn draw_up_to(&mut self, last: u8) -> u64 {
        let balls = (1..=20).filter(|&number| number != last).chain([last]);
        let answers = balls.map(|number| self.give(Command::Ball { number }));
        answers.last().expect("twenty balls").cents
    }

    fn claim(&mut self, ticket: u32) -> Answer {
        self.give(Command::Claim { ticket })
    }

    /// A ticket that finishes on this day with three times its stake due.
    fn finish_on(&mut self, day: u16, stake: u32) {
        self.give(Command::Open { day });
        self.straight(0, stake, &[1]);
        assert_eq!(self.draw(), 3 * u64::from(stake));
    }

    fn collect(&mut self, ticket: u32) -> Answer {
        self.give(Command::Collect { ticket })
    }

    fn call_off(&mut self) -> Answer {
        self.give(Command::CallOff)
    }

    fn expire_on(&mut self, day: u16) -> Answer {
        assert_eq!(self.give(Command::Open { day }).code, 0);
        self.give(Command::Expire)
    }
}

/// The numbers from 1 on, so many of them balls, and the others not.
fn numbers(balls: u8, others: u8) -> Vec<u8> {
    (1..=balls).chain(81 - others..=80).collect()
}

#[test]
fn the_printed_roll() {
    let mut roll = vec![1, 0, 1, 2, 0, 1, 0, 0, 0, 100, 1, 1, 1];
    roll.extend([0; 79]);
    roll.extend([3, 0, 0, 0, 1, 5, 0, 0, 0, 1]);
    let mut lounge = Lounge::fresh();
    let mut book = [7; 5 * ANSWER_BYTES];
    let report = lounge.roll(&roll, &mut book);
    assert_eq!((report.stop, report.read, report.answers), (Stop::End, roll.len(), 4));

    let (records, beyond) = book.split_at(4 * ANSWER_BYTES);
    let answers: Vec<(u8, Answer)> = records.chunks(ANSWER_BYTES).map(read_answer).collect();
    let answer = |code, number, cents| Answer { code, number, cents };
    let printed = [
        (1, answer(0, 1, 0)),
        (2, answer(0, 1, 100)),
        (3, answer(0, 1, 100)),
        (5, answer(19, 0, 0)),
    ];
    assert_eq!(answers, printed);
    assert_eq!(beyond, [7; ANSWER_BYTES]);
    let till = Till {
        taken: 100,
        seeds: 1_350_000,
        paid: 0,
        refunded: 100,
        owed: 0,
        held: 0,
        unclaimed: 0,
        pooled: 1_350_000,
        retained: 0,
        negative: false,
    };
    assert_eq!(lounge.till(), till);
}

#[test]
fn charges() {
    let mut desk = Desk::on_day_one();
    let rows =
        [(5, 200, 1_000), (49, 100, 4_900), (50, 100, 4_900), (99, 100, 9_800), (100, 100, 9_800)];
    for (games, stake, charge) in rows {
        let answer = desk.give(Command::sell(0, games, stake, &[&[1]], 1));
        assert_eq!((answer.code, answer.cents), (0, charge), "{games} games");
    }
}

/// Tickets of one way, what the twentieth ball answers, and what each is paid.
fn settles(tickets: &[(u8, u32, Vec<u8>)], all: u64, paid: &[u64]) -> Desk {
    let mut desk = Desk::on_day_one();
    for (kind, stake, numbers) in tickets {
        desk.straight(*kind, *stake, numbers);
    }
    assert_eq!(desk.draw(), all);
    for (number, &cents) in (1..).zip(paid) {
        assert_eq!(desk.claim(number), Answer::accepted(number, cents), "ticket {number}");
    }
    desk
}

#[test]
fn prizes_and_cuts() {
    settles(&[(0, 200, numbers(7, 1))], 111_000, &[111_000]);
    // 15 of 15 at 100 are at the cap, 5 of 6 at 600 are 30,000.
    let cap = (0, 100, numbers(15, 0));
    let small = (0, 600, numbers(5, 1));
    let (cut, floor) = (2_490_000, 20_000);
    settles(&[cap.clone(), cap.clone(), small], 5_000_000, &[cut, cut, floor]);
    let desk = settles(&vec![cap; 3], 4_999_998, &[1_666_666; 3]);
    let till = desk.lounge.till();
    assert_eq!((till.retained, till.negative), (4_999_998 - 300, true));
    // 8 of 9, 12 of 13 and 9 of 11: 5,000,000 together, uncut.
    let uncut = [(0, 100, numbers(8, 1)), (0, 100, numbers(12, 1)), (0, 1_800, numbers(9, 2))];
    settles(&uncut, 5_000_000, &[300_000, 2_000_000, 2_700_000]);
}

#[test]
fn jackpots() {
    let desk = settles(&[(1, 100, numbers(6, 0))], 100_015, &[100_015]);
    assert_eq!(desk.lounge.till().seeds, 1_350_000 + 99_995);
    assert_eq!(desk.lounge.pools().six.debt, 199_990);
    let two = [(1, 100, numbers(6, 0)), (1, 200, numbers(6, 0))];
    settles(&two, 100_045, &[33_348, 66_697]);
    let three = [100, 300, 200].map(|stake| (1, stake, numbers(6, 0)));
    settles(&three, 100_090, &[16_681, 50_046, 33_363]);
}

/// Ten ways at 200, three at 300 and one at 500: of 6 odd cents the last ticket has
/// one, the second one a way, and the first the rest.
#[test]
fn odd_cents_by_the_stake_of_a_way() {
    let mut desk = Desk::on_day_one();
    let numbers = numbers(10, 0);
    let pairs: Vec<&[u8]> = numbers.chunks(2).collect();
    let triplets: Vec<&[u8]> = numbers[..9].chunks(3).collect();
    desk.give(Command::sell(1, 1, 200, &pairs, 0b100));
    desk.give(Command::sell(1, 1, 300, &triplets, 0b10));
    desk.straight(1, 500, &numbers[..6]);
    assert_eq!(desk.draw(), 100_510);
    let shares = [10 * 5_912 + 2, 3 * 8_868 + 3, 14_780 + 1];
    for (ticket, cents) in (1..).zip(shares) {
        assert_eq!(desk.claim(ticket), Answer::accepted(ticket, cents), "ticket {ticket}");
    }
}

#[test]
fn fifteen_and_sixteen_numbers() {
    let mut desk = Desk::on_day_one();
    let sale = |numbers: Vec<u8>| Command::sell(0, 1, 100, &[&numbers], 1);
    assert_eq!(desk.give(sale(numbers(15, 0))), Answer::accepted(1, 100));
    assert_eq!(desk.give(sale(numbers(16, 0))), Answer::refused(12));
}

#[test]
fn two_hundred_and_one_tickets() {
    let mut desk = Desk::on_day_one();
    for number in 1..=200 {
        assert_eq!(desk.straight(0, 100, &[1]), number);
    }
    let one_more = Command::sell(0, 1, 100, &[&[1]], 1);
    assert_eq!(desk.give(one_more), Answer::refused(16));
    assert_eq!(desk.lounge.live_list(&mut [0; 799]), Err(Refusal::ShortBuffer));
    assert_eq!(desk.lounge.live_list(&mut [0; 800]), Ok(200));
}

/// "Finished on 1 March 1999, it still stands on 1 March 2000, 366 days after."
#[test]
fn a_year_by_the_calendar() {
    let mut desk = Desk::on_day_one();
    desk.finish_on(425, 100);
    assert_eq!(desk.expire_on(791), Answer::accepted(0, 0));
    let till = desk.lounge.till();
    assert_eq!((till.owed, till.unclaimed), (300, 0));
    assert_eq!(desk.expire_on(792), Answer::accepted(1, 300));
    let till = desk.lounge.till();
    assert_eq!((till.owed, till.unclaimed), (0, 300));
}

/// 28 and 29 February 2000 both stand through 28 February 2001; 1 March 2000 has
/// its own date.
#[test]
fn a_leap_day_counts_as_the_day_before() {
    let mut desk = Desk::on_day_one();
    desk.finish_on(789, 100);
    desk.finish_on(790, 200);
    desk.finish_on(791, 400);
    assert_eq!(desk.expire_on(1_155), Answer::accepted(0, 0));
    assert_eq!(desk.expire_on(1_156), Answer::accepted(2, 900));
    assert_eq!(desk.claim(1), Answer::refused(19));
    assert_eq!(desk.claim(2), Answer::refused(19));
    assert_eq!(desk.expire_on(1_157), Answer::accepted(1, 1_200));
    let till = desk.lounge.till();
    assert_eq!((till.owed, till.unclaimed), (0, 2_100));
}

/// $3 for 1 of 1 in any case, and $60 for each feature dollar when it is the last.
#[test]
fn one_number_and_the_last_ball() {
    for (last, cents) in [(20, 6_300), (19, 300), (1, 300)] {
        let mut desk = Desk::on_day_one();
        let ticket = desk.lucky_last(1, 100, 100, &[20]);
        assert_eq!((desk.lounge.till().taken, desk.lounge.till().held), (200, 200));
        assert_eq!(desk.draw_up_to(last), cents);
        assert_eq!(desk.lounge.till().owed, cents);
        assert_eq!(desk.claim(ticket), Answer::accepted(ticket, cents));
        let till = desk.lounge.till();
        assert_eq!((till.retained, till.negative), (cents - 200, true));
    }
}

/// Rule 21.1 on 1 to 15 numbers of which one is drawn: without the feature, with it
/// and as the last ball, and with it and not as the last.
#[test]
fn a_feature_by_how_many_numbers() {
    let cents =
        [6_000, 3_000, 2_000, 1_500, 1_200, 1_000, 850, 750, 650, 600, 550, 500, 450, 400, 400];
    for (others, cents) in (0..).zip(cents) {
        let mut desk = Desk::on_day_one();
        let numbers = numbers(1, others);
        desk.straight(0, 100, &numbers);
        let plain = desk.draw_up_to(1);
        desk.lucky_last(1, 100, 700, &numbers);
        assert_eq!(desk.draw_up_to(1), plain + 7 * cents, "{numbers:?}");
        desk.lucky_last(1, 100, 700, &numbers);
        assert_eq!(desk.draw_up_to(2), plain, "{numbers:?}");
    }
}

/// Majors 5,000,000, 5,000,000, 30,000, of which the first has a feature: 15 numbers
/// at $100 are 40,000 whole.
#[test]
fn a_feature_beside_a_cut() {
    let mut desk = Desk::on_day_one();
    desk.lucky_last(1, 100, 10_000, &numbers(15, 0));
    desk.straight(0, 100, &numbers(15, 0));
    desk.straight(0, 600, &numbers(5, 1));
    assert_eq!(desk.draw_up_to(15), 5_040_000);
    for (ticket, cents) in (1..).zip([2_490_000 + 40_000, 2_490_000, 20_000]) {
        assert_eq!(desk.claim(ticket), Answer::accepted(ticket, cents));
    }
}

/// 49 of 50 games are paid for, the feature in the same ones, and the last is won.
#[test]
fn a_feature_in_a_free_game_and_a_refund() {
    let mut desk = Desk::on_day_one();
    let sale = Command::lucky_last(50, 100, 200, &[20]);
    assert_eq!(desk.give(sale.clone()), Answer::accepted(1, 49 * 300));
    assert_eq!(desk.give(Command::Cancel { ticket: 1 }), Answer::accepted(1, 49 * 300));
    assert_eq!(desk.give(sale), Answer::accepted(2, 49 * 300));
    for _game in 1..=49 {
        assert_eq!(desk.draw_up_to(1), 300);
    }
    assert_eq!(desk.lounge.till().held, 0);
    assert_eq!(desk.draw_up_to(20), 300 + 12_000);
    assert_eq!(desk.claim(2), Answer::accepted(2, 50 * 300 + 12_000));
}

/// 31 comes before 14, 14 before 32 and 32 before 15.
#[test]
fn refusals_of_a_feature() {
    let mut desk = Desk::on_day_one();
    let most = 4_294_967_200;
    let jackpot = Sale::new(1, 1, 50, &[&numbers(6, 0)], 1).with_feature(0);
    let two_ways = Sale::new(0, 1, 100, &[&[1], &[2]], 1).with_feature(100);
    let rows = [
        (Command::Sell(jackpot), 31),
        (Command::Sell(two_ways), 31),
        (Command::lucky_last(1, 50, 50, &[1]), 14),
        (Command::lucky_last(1, most, 0, &[1]), 32),
        (Command::lucky_last(1, most, 101, &[1]), 32),
        (Command::lucky_last(100, most, most, &[1]), 15),
        (Command::lucky_last(1, 999_900, 100, &[1]), 15),
    ];
    for (command, code) in rows {
        assert_eq!(desk.give(command.clone()), Answer::refused(code), "{command:?}");
    }
    assert_eq!(desk.lucky_last(1, 999_800, 100, &[1]), 1);
}

/// "A guest with twenty games wins in the second and wants the money now." The figures
/// that may not move do not; and the ticket is kept on, collected again and claimed.
#[test]
fn twenty_games_collected_after_the_second() {
    let mut desk = Desk::on_day_one();
    desk.give(Command::sell(0, 20, 100, &[&[1]], 1));
    desk.draw_without(1);
    assert_eq!(desk.collect(1), Answer::refused(34));
    assert_eq!(desk.draw(), 300);
    let before = desk.lounge.till();
    assert_eq!(desk.collect(1), Answer::accepted(2, 300));
    assert_eq!(desk.lounge.till(), Till { paid: 300, owed: 0, ..before });
    assert_eq!(desk.collect(1), Answer::refused(19));
    assert_eq!(desk.claim(1), Answer::refused(19));
    assert_eq!(desk.collect(2), Answer::refused(34));
    assert_eq!((3..=19).map(|_| desk.draw()).sum::<u64>(), 17 * 300);
    // While the last game is drawn.
    desk.give(Command::Ball { number: 1 });
    assert_eq!(desk.collect(2), Answer::accepted(3, 17 * 300));
    let rest = (2..=20).map(|number| desk.give(Command::Ball { number }));
    assert_eq!(rest.last(), Some(Answer::accepted(20, 300)));
    assert_eq!(desk.collect(3), Answer::refused(33));
    assert_eq!(desk.claim(3), Answer::accepted(3, 300));
    let till = desk.lounge.till();
    assert_eq!((till.paid, till.owed, till.held, till.taken), (19 * 300, 0, 0, 2_000));
}

/// "A reissued Keno To Go ticket counts as begun"; one of fewer games is cancelled on its
/// day of sale, and on no other.
#[test]
fn reissued_tickets_are_cancelled_or_not() {
    let mut desk = Desk::on_day_one();
    for games in [50, 49, 49] {
        desk.give(Command::sell(0, games, 200, &[&[1]], 1));
    }
    assert_eq!(desk.draw(), 3 * 600);
    for ticket in 1..=3 {
        assert_eq!(desk.collect(ticket), Answer::accepted(ticket + 3, 600));
    }
    let cancel = |ticket| Command::Cancel { ticket };
    assert_eq!(desk.give(cancel(4)), Answer::refused(21));
    assert_eq!(desk.give(cancel(5)), Answer::accepted(5, 48 * 200));
    desk.give(Command::Open { day: 2 });
    assert_eq!(desk.give(cancel(4)), Answer::refused(20));
    assert_eq!(desk.give(cancel(6)), Answer::refused(20));
    assert_eq!(desk.draw(), 2 * 600);
    assert_eq!(desk.collect(6), Answer::accepted(7, 600));
    assert_eq!(desk.give(cancel(7)), Answer::refused(20));
}

/// The last game of 50 is free, whatever was collected before: nothing is held for it.
#[test]
fn free_games_are_as_before() {
    let mut desk = Desk::on_day_one();
    desk.give(Command::sell(1, 50, 100, &[&numbers(6, 0)], 1));
    assert_eq!(desk.draw(), 100_015);
    assert_eq!(desk.collect(1), Answer::accepted(2, 100_015));
    assert_eq!(desk.lounge.till().held, 48 * 100);
    for _game in 2..=49 {
        desk.draw_without(1);
    }
    assert_eq!(desk.lounge.till().held, 0);
    let primary = desk.lounge.pools().six.primary;
    assert_eq!(primary, 100_000 + 48 * 15);
    assert_eq!(desk.draw(), primary);
    assert_eq!(desk.claim(2), Answer::accepted(2, primary));
}

/// "Each live ticket that runs in it is due its paid stake for it, all its ways and any feature
/// stake together." Held loses what owed gains, and nothing else moves.
#[test]
fn a_game_called_off() {
    let mut desk = Desk::on_day_one();
    let groups: [&[u8]; 3] = [&[1, 2], &[3, 4], &[79, 80]];
    desk.give(Command::sell(0, 2, 50, &groups, 3));
    desk.lucky_last(1, 100, 200, &[20]);
    desk.straight(1, 700, &numbers(6, 0));
    for number in 1..=19 {
        desk.give(Command::Ball { number });
    }
    let (before, pools) = (desk.lounge.till(), desk.lounge.pools());
    assert_eq!(desk.call_off(), Answer::accepted(1, 300 + 300 + 700));
    assert_eq!(desk.lounge.till(), Till { owed: 1_300, held: before.held - 1_300, ..before });
    assert_eq!(desk.lounge.pools(), pools);
    assert_eq!(desk.claim(1), Answer::refused(23));
    assert_eq!(desk.claim(2), Answer::accepted(2, 300));
    assert_eq!(desk.claim(3), Answer::accepted(3, 700));
    // Two of two twice, four of four, and two of four twice, at 50 cents.
    assert_eq!(desk.draw(), 7_050);
    assert_eq!(desk.claim(1), Answer::accepted(1, 300 + 7_050));
    assert_eq!((desk.lounge.till().owed, desk.lounge.till().held), (0, 0));
}

/// "A free game gives nothing": after the last, a ticket with nothing due is closed.
#[test]
fn free_games_called_off() {
    let mut desk = Desk::on_day_one();
    desk.give(Command::sell(0, 100, 100, &[&[80]], 1));
    desk.give(Command::sell(0, 99, 100, &[&[80]], 1));
    (1..=97).for_each(|_game| assert_eq!(desk.draw(), 0));
    for (game, due) in [(98, 200), (99, 0), (100, 0)] {
        assert_eq!(desk.call_off(), Answer::accepted(game, due), "game {game}");
    }
    assert_eq!(desk.claim(1), Answer::accepted(1, 100));
    assert_eq!(desk.claim(2), Answer::accepted(2, 100));
    desk.give(Command::sell(0, 50, 100, &[&[80]], 1));
    (1..=49).for_each(|_game| assert_eq!(desk.draw(), 0));
    assert_eq!(desk.call_off(), Answer::accepted(150, 0));
    assert_eq!(desk.claim(3), Answer::refused(19));
}

/// "A Keno To Go whose first game is called off counts as begun"; one that was sold while
/// that game was being drawn does not. What is left of other tickets comes off.
#[test]
fn cancels_after_a_game_called_off() {
    let mut desk = Desk::on_day_one();
    for games in [50, 49] {
        desk.give(Command::sell(0, games, 100, &[&[1]], 1));
    }
    desk.give(Command::Ball { number: 1 });
    desk.give(Command::sell(0, 50, 100, &[&[1]], 1));
    assert_eq!(desk.call_off(), Answer::accepted(1, 200));
    let cancel = |ticket| Command::Cancel { ticket };
    assert_eq!(desk.give(cancel(1)), Answer::refused(21));
    assert_eq!(desk.give(cancel(2)), Answer::accepted(2, 4_800));
    assert_eq!(desk.give(cancel(3)), Answer::accepted(3, 4_900));
    assert_eq!(desk.give(cancel(2)), Answer::refused(22));
    assert_eq!(desk.collect(1), Answer::accepted(4, 100));
    assert_eq!(desk.give(cancel(4)), Answer::refused(21));
}

/// What is due for a game called off expires as prizes do, and the house may open a day and
/// transfer at once, since no ball is in.
#[test]
fn a_game_called_off_and_a_year_later() {
    let mut desk = Desk::on_day_one();
    desk.straight(0, 500, &[1]);
    desk.give(Command::Ball { number: 1 });
    assert_eq!(desk.give(Command::Open { day: 2 }), Answer::refused(6));
    assert_eq!(desk.call_off(), Answer::accepted(1, 500));
    assert_eq!(desk.expire_on(366), Answer::accepted(0, 0));
    assert_eq!(desk.expire_on(367), Answer::accepted(1, 500));
    desk.give(Command::Ball { number: 1 });
    let transfer = Command::Transfer { jackpot: 6, cents: 500 };
    assert_eq!(desk.give(transfer.clone()), Answer::refused(6));
    assert_eq!(desk.call_off(), Answer::accepted(2, 0));
    assert_eq!(desk.give(transfer), Answer::accepted(6, 100_500));
}
