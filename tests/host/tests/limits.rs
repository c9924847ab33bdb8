//! The limits of 9,999,999 games and tickets, which the proved core has to walk
//! to; the reference begins there.

mod side_by_side;

use reference::command::{BALL, CALL_OFF, COLLECT, LUCKY_LAST, SELL};
use reference::roll::ANSWER_BYTES;
use reference::{Command, House};
use rolls::{far_tickets, FarGames, RollWriter};
use side_by_side::Pair;
use wulipday::{Lounge, Stop};

/// Runs a roll that must be read whole.
fn walk(lounge: &mut Lounge, roll: &[u8], book: &mut [u8]) {
    let report = lounge.roll(roll, book);
    assert_eq!((report.stop, report.read), (Stop::End, roll.len()));
}

/// Two hundred million balls, then the last hundred games, of which the very last is drawn or
/// called off: codes 17 and 26.
#[test]
fn the_last_games() {
    let far = FarGames::new();
    let mut lounge = Lounge::fresh();
    let mut book = vec![0; 65_536 / 2 * ANSWER_BYTES];
    let walked: Vec<&[u8]> = far.rolls().collect();
    let (last, before) = walked.split_last().expect("there are rolls");
    before.iter().for_each(|roll| walk(&mut lounge, roll, &mut book));

    let house = House::seasoned(1, far.games_before_the_last_roll(), 0);
    for (roll, called_off) in [(*last, 1), (far.last_roll_called_off(), 2)] {
        let mut pair = Pair::of(lounge.clone(), house.clone());
        assert_eq!(pair.read_by_command(roll), Ok(()));
        let coverage = &pair.counts.proved;
        assert!(coverage.answers(SELL, 17) >= 5 && coverage.answers(LUCKY_LAST, 17) >= 5);
        assert_eq!((coverage.answers(BALL, 26), coverage.answers(CALL_OFF, 26)), (2, 2));
        assert_eq!(coverage.answers(CALL_OFF, 0), called_off);
    }
}

/// Ten million tickets, the last 200 of them live: 16 comes before 17. And the last two
/// numbers issued by collections, after which comes 35.
#[test]
fn the_last_ticket() {
    const CANCELLED: u32 = far_tickets::CANCELLED;
    const ON_A_ROLL: u32 = 600;
    let sell = Command::sell(0, 1, House::SEASONED_CHARGE as u32, &[&[1]], 1).encode();
    let sold_and_cancelled = |ticket: u32| [sell.clone(), Command::Cancel { ticket }.encode()];
    let mut lounge = Lounge::fresh();
    let mut book = vec![0; 2 * ON_A_ROLL as usize * ANSWER_BYTES];
    walk(&mut lounge, &[1, 0, 1], &mut book);
    for first in (1..=CANCELLED).step_by(ON_A_ROLL as usize) {
        let tickets = first..=CANCELLED.min(first + ON_A_ROLL - 1);
        let roll = tickets.flat_map(sold_and_cancelled).collect::<Vec<_>>().concat();
        walk(&mut lounge, &roll, &mut book);
    }

    let house = House::seasoned(1, 0, CANCELLED);
    let mut pair = Pair::of(lounge.clone(), house.clone());
    assert_eq!(pair.read_by_command(&far_tickets::last_collections()), Ok(()));
    let coverage = &pair.counts.proved;
    assert_eq!((coverage.answers(COLLECT, 0), coverage.answers(COLLECT, 35)), (2, 5));
    assert_eq!(coverage.answers(LUCKY_LAST, 17), 2);

    let mut writer = RollWriter::on(house.clone());
    for ticket in 1..=202 {
        // The last number of all goes to a ticket with a feature.
        if ticket < 200 {
            writer.straight(0, 1, 100, &[1]);
        } else {
            writer.lucky_last(1, 100, 100, &[20]);
        }
    }
    writer.straight(0, 1, 100, &[1]);
    writer.cancel(CANCELLED);
    writer.cancel(House::LAST_TICKET);
    writer.cancel(House::LAST_TICKET + 1);
    writer.straight(0, 1, 100, &[1]);
    writer.lucky_last(1, 100, 100, &[20]);
    writer.balls(&(1..=20).collect::<Vec<u8>>());
    writer.claim_last(201);
    writer.straight(0, 1, 100, &[1]);
    writer.lucky_last(1, 100, 100, &[20]);

    let mut pair = Pair::of(lounge, house);
    assert_eq!(pair.read_by_command(&writer.finish()), Ok(()));
    let coverage = &pair.counts.proved;
    assert_eq!(coverage.answers(LUCKY_LAST, 0), 1);
    assert_eq!((coverage.answers(SELL, 16), coverage.answers(LUCKY_LAST, 16)), (1, 2));
    assert_eq!((coverage.answers(SELL, 17), coverage.answers(LUCKY_LAST, 17)), (2, 2));
}
