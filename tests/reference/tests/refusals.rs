//! "Where each thing is checked": each number at least once, each before
//! everything that stands after it, and the house left as it was.
//!
//! The command that must be refused with a number breaks, as far as one
//! command can, every later rule of its row as well. Sales with a feature stand in
//! feature_refusals.rs, collections in collecting.rs, games called off in calling_off.rs.

mod checks;

use checks::{accepted, refused, Desk, FIRST_TWENTY, LAST_TWENTY, STRAIGHT};
use reference::command::{Answer, Command};
use reference::ways::marks_of;
use reference::{Flaw, House, Sale};

fn desk() -> Desk {
    Desk::new(Flaw::None)
}

/// A Sell with every operand in hand.
fn sell(kind: u8, games: u8, stake: u32, groups: u8, types: u8, marks: Vec<u8>) -> Command {
    Command::Sell(Sale { kind, games, stake, groups, types, marks, feature_stake: None })
}

fn numbers(count: u8) -> Vec<u8> {
    (1..=count).collect()
}

fn straight_marks(count: u8) -> Vec<u8> {
    marks_of(&[&numbers(count)])
}

#[test]
fn code_4_every_command_but_open() {
    let mut house = House::fresh();
    let commands = [
        sell(9, 0, 0, 0, 0, vec![]),
        Command::Cancel { ticket: 0 },
        Command::Ball { number: 0 },
        Command::Claim { ticket: 0 },
        Command::Expire,
        Command::Transfer { jackpot: 0, cents: 0 },
        Command::Collect { ticket: 0 },
        Command::CallOff,
    ];
    for command in commands {
        refused(&mut house, &command, 4);
    }
    accepted(&mut house, &Command::Open { day: 1 });
}

#[test]
fn codes_5_and_6_open() {
    let mut house = House::fresh();
    refused(&mut house, &Command::Open { day: 0 }, 5);
    assert_eq!(house.command(&Command::Open { day: 7 }), Answer::accepted(7, 0));
    refused(&mut house, &Command::Open { day: 7 }, 5);
    refused(&mut house, &Command::Open { day: 6 }, 5);
    accepted(&mut house, &Command::Ball { number: 80 });
    refused(&mut house, &Command::Open { day: 7 }, 5);
    refused(&mut house, &Command::Open { day: 8 }, 6);
    for number in 1..=18 {
        accepted(&mut house, &Command::Ball { number });
    }
    refused(&mut house, &Command::Open { day: 8 }, 6);
    accepted(&mut house, &Command::Ball { number: 19 });
    accepted(&mut house, &Command::Open { day: u16::MAX });
}

#[test]
fn codes_7_to_9_kind_games_groups() {
    let house = &mut desk().house;
    for kind in [4, 255] {
        refused(house, &sell(kind, 0, 0, 0, 0, vec![]), 7);
    }
    for games in [0, 101, 255] {
        refused(house, &sell(0, games, 0, 0, 0, vec![]), 8);
    }
    for groups in [0, 9, 255] {
        refused(house, &sell(0, 1, 0, groups, 0, vec![9; 79]), 9);
    }
}

#[test]
fn code_10_marks() {
    let house = &mut desk().house;
    let good = straight_marks(1);
    let mut over = good.clone();
    over[79] = 2;
    let broken = [
        vec![],
        good[..79].to_vec(),
        [&good[..], &[0]].concat(),
        [&good[..], &good[..]].concat(),
        over,
        vec![0; 80],
        vec![255; 80],
    ];
    for marks in broken {
        refused(house, &sell(0, 1, 0, 1, 0, marks), 10);
    }
    // A group without a number, first, in between and last.
    for groups in [&[&[][..], &[1]][..], &[&[1], &[], &[2]], &[&[1], &[2], &[]]] {
        refused(house, &Command::sell(0, 1, 0, groups, 0), 10);
    }
}

#[test]
fn code_11_types() {
    let house = &mut desk().house;
    let sixteen = straight_marks(16);
    for types in [0, 2, 3, 128, 255] {
        refused(house, &sell(2, 1, 0, 1, types, sixteen.clone()), 11);
    }
    let groups: Vec<Vec<u8>> = (1..=7).map(|number| vec![number]).collect();
    let groups: Vec<&[u8]> = groups.iter().map(Vec::as_slice).collect();
    refused(house, &Command::sell(0, 1, 0, &groups, 128), 11);
    accepted(house, &Command::sell(0, 1, 10, &groups, 127));
}

#[test]
fn code_12_way_sizes() {
    let house = &mut desk().house;
    let rows: [(u8, &[u8], &[u8]); 3] = [
        (0, &[1, 15], &[16, 80]),
        (1, &[6, 8], &[1, 5, 7, 9, 15, 16]),
        (3, &[3, 4, 5, 6], &[1, 2, 7, 15, 16]),
    ];
    for (kind, good, bad) in rows {
        for &size in bad {
            refused(house, &sell(kind, 1, 0, 1, STRAIGHT, straight_marks(size)), 12);
        }
        for &size in good {
            accepted(house, &sell(kind, 1, 100, 1, STRAIGHT, straight_marks(size)));
        }
    }
    // Special One with one way is refused for the size first.
    refused(house, &sell(2, 1, 0, 1, STRAIGHT, straight_marks(16)), 12);
    // Sixes and eights do not go together on a jackpot ticket, nor does one way
    // of another size.
    let six: &[u8] = &[1, 2, 3, 4, 5, 6];
    let eight: &[u8] = &[11, 12, 13, 14, 15, 16, 17, 18];
    refused(house, &Command::sell(1, 1, 0, &[six, eight], 1), 12);
    refused(house, &Command::sell(1, 1, 0, &[six, &[21, 22]], 3), 12);
    accepted(house, &Command::sell(1, 1, 100, &[six, &[21, 22, 23, 24, 25, 26]], 1));
    // One way too large among many.
    refused(house, &Command::sell(0, 1, 0, &[eight, &[21, 22, 23, 24, 25, 26, 27, 28]], 3), 12);
    accepted(house, &Command::sell(0, 1, 100, &[eight, &[21, 22, 23, 24, 25, 26, 27]], 3));
}

#[test]
fn code_13_special_one_with_one_way() {
    let house = &mut desk().house;
    refused(house, &sell(2, 1, 0, 1, STRAIGHT, straight_marks(15)), 13);
    refused(house, &Command::sell(2, 1, 0, &[&[1, 2], &[3, 4]], 2), 13);
    accepted(house, &Command::sell(2, 1, 100, &[&[1, 2], &[3, 4]], 1));
}

/// Groups of one number each, and the types that make so many ways of them.
fn ways_ticket(kind: u8, games: u8, stake: u32, ways: usize) -> Command {
    let (groups, types) = match ways {
        1 => (1, 0b1),
        3 => (3, 0b1),
        4 => (4, 0b1),
        17 => (8, 0b1100_0001),
        20 => (6, 0b100),
        49 => (7, 0b10_0101),
        50 => (7, 0b110_0101),
        255 => (8, 255),
        _ => panic!("no shape for {ways} ways"),
    };
    let groups: Vec<Vec<u8>> = (1..=groups).map(|number| vec![number]).collect();
    let groups: Vec<&[u8]> = groups.iter().map(Vec::as_slice).collect();
    Command::sell(kind, games, stake, &groups, types)
}

#[test]
fn code_14_stake() {
    // No groups make 18 or 19 ways.
    let rows: [(usize, &[u32], &[u32]); 8] = [
        (1, &[100, 200, 999_900], &[0, 10, 50, 99, 101, 110, 150, 4_294_967_295]),
        (3, &[100, 200], &[0, 50, 90, 110, 250]),
        (4, &[50, 60, 90, 100, 200], &[0, 10, 40, 49, 51, 55, 101, 110, 190, 4_294_967_295]),
        (17, &[50, 100, 300], &[20, 40, 110]),
        (20, &[20, 30, 50, 100, 200], &[0, 10, 19, 25, 110, 150]),
        (49, &[20, 100], &[10, 120]),
        (50, &[10, 20, 100], &[5, 120]),
        (255, &[10, 20, 100, 200], &[0, 1, 5, 15, 110, 4_294_967_290]),
    ];
    for (ways, good, bad) in rows {
        let house = &mut desk().house;
        for &stake in bad {
            refused(house, &ways_ticket(0, 1, stake, ways), 14);
        }
        for &stake in good {
            accepted(house, &ways_ticket(0, 1, stake, ways));
        }
    }
}

/// Jackpot tickets keep to whole dollars however many ways they have.
#[test]
fn code_14_stake_of_a_jackpot_ticket() {
    let house = &mut desk().house;
    let pairs: Vec<Vec<u8>> = (1..=8).map(|pair| vec![2 * pair - 1, 2 * pair]).collect();
    let pairs: Vec<&[u8]> = pairs.iter().map(Vec::as_slice).collect();
    for stake in [0, 10, 20, 50, 90, 110, 250] {
        refused(house, &Command::sell(1, 1, stake, &pairs, 0b100), 14);
    }
    assert_eq!(accepted(house, &Command::sell(1, 1, 100, &pairs, 0b100)).cents, 5_600);
}

#[test]
fn code_15_charge() {
    let house = &mut desk().house;
    assert_eq!(accepted(house, &ways_ticket(0, 1, 999_900, 1)).cents, 999_900);
    refused(house, &ways_ticket(0, 1, 1_000_000, 1), 15);
    refused(house, &ways_ticket(0, 1, 4_294_967_200, 1), 15);
    assert_eq!(accepted(house, &ways_ticket(0, 99, 10_200, 1)).cents, 999_600);
    refused(house, &ways_ticket(0, 100, 10_300, 1), 15);
    assert_eq!(accepted(house, &ways_ticket(0, 100, 10_200, 1)).cents, 999_600);
    // 255 × 300 × 13 = 994,500, and 14 games are too dear.
    assert_eq!(accepted(house, &ways_ticket(0, 13, 300, 255)).cents, 994_500);
    refused(house, &ways_ticket(0, 14, 300, 255), 15);
    refused(house, &ways_ticket(0, 100, 4_294_967_200, 255), 15);
}

/// The 200th ticket is sold, the 201st is not, and a refused sale is refused
/// for what is wrong with the ticket first.
#[test]
fn code_16_200_live_tickets() {
    let mut house = House::seasoned(1, House::LAST_GAME - 1, 0);
    let ticket = ways_ticket(0, 1, 100, 1);
    for number in 1..=200 {
        assert_eq!(accepted(&mut house, &ticket).number, number);
    }
    refused(&mut house, &ticket, 16);
    // With two games it also runs past the last game.
    refused(&mut house, &ways_ticket(0, 2, 100, 1), 16);
    refused(&mut house, &ways_ticket(0, 1, 1_000_000, 1), 15);
    refused(&mut house, &ways_ticket(0, 1, 50, 1), 14);
    accepted(&mut house, &Command::Cancel { ticket: 100 });
    refused(&mut house, &ways_ticket(0, 2, 100, 1), 17);
    assert_eq!(accepted(&mut house, &ticket).number, 201);
    refused(&mut house, &ticket, 16);
}

#[test]
fn code_17_numbers_used_up() {
    let ticket = ways_ticket(0, 1, 100, 1);
    let mut house = House::seasoned(1, 0, House::LAST_TICKET - 1);
    assert_eq!(accepted(&mut house, &ticket).number, 9_999_999);
    refused(&mut house, &ticket, 17);
    refused(&mut house, &Command::Cancel { ticket: 10_000_000 }, 18);
    accepted(&mut house, &Command::Cancel { ticket: 9_999_999 });
    // A number is used up even when its ticket is closed.
    refused(&mut house, &ticket, 17);

    let mut house = House::seasoned(1, 9_999_899, 0);
    assert_eq!(house.game(), 9_999_900);
    accepted(&mut house, &ways_ticket(0, 100, 100, 1));
    accepted(&mut house, &Command::Ball { number: 1 });
    refused(&mut house, &ways_ticket(0, 100, 100, 1), 17);
    accepted(&mut house, &ways_ticket(0, 99, 100, 1));
}

#[test]
fn codes_18_and_19_tickets() {
    let mut desk = desk();
    let cancelled = desk.straight(0, 1, 100, &[1]);
    desk.cancel(cancelled);
    let lost = desk.straight(0, 1, 100, &[80]);
    let claimed = desk.straight(0, 1, 100, &[1]);
    let expired = desk.straight(0, 1, 100, &[2]);
    desk.draw(&FIRST_TWENTY);
    desk.claim(claimed);
    desk.open(500);
    assert_eq!(desk.expire(), Answer::accepted(1, 300));
    for number in [0, 5, u32::MAX] {
        refused(&mut desk.house, &Command::Cancel { ticket: number }, 18);
        refused(&mut desk.house, &Command::Claim { ticket: number }, 18);
    }
    for number in [cancelled, lost, claimed, expired] {
        refused(&mut desk.house, &Command::Cancel { ticket: number }, 19);
        refused(&mut desk.house, &Command::Claim { ticket: number }, 19);
    }
    desk.difference.expect("house and sheet agree");
}

#[test]
fn codes_20_to_22_cancel() {
    let mut desk = desk();
    let yesterdays = desk.straight(0, 100, 100, &[1]);
    desk.draw(&FIRST_TWENTY);
    desk.open(2);
    // Begun and of an earlier day: the day comes first.
    refused(&mut desk.house, &Command::Cancel { ticket: yesterdays }, 20);

    let to_go = desk.straight(0, 50, 100, &[1]);
    let one_game = desk.straight(0, 1, 100, &[1]);
    desk.ball(80);
    refused(&mut desk.house, &Command::Cancel { ticket: to_go }, 21);
    refused(&mut desk.house, &Command::Cancel { ticket: one_game }, 22);
    let next_game = desk.straight(0, 50, 100, &[1]);
    assert_eq!(desk.cancel(next_game).cents, 4_900);
    desk.draw(&FIRST_TWENTY[..19]);
    // One game is drawn and won, the other 49 are not begun, and still it may
    // not be cancelled.
    refused(&mut desk.house, &Command::Cancel { ticket: to_go }, 21);
    // Finished and live.
    refused(&mut desk.house, &Command::Cancel { ticket: one_game }, 22);
    for _game in 2..=50 {
        desk.draw(&FIRST_TWENTY);
    }
    // A finished Keno To Go has begun, which comes before having no game left.
    assert!(desk.house.tickets()[to_go as usize - 1].is_finished());
    refused(&mut desk.house, &Command::Cancel { ticket: to_go }, 21);
    desk.open(3);
    refused(&mut desk.house, &Command::Cancel { ticket: to_go }, 20);
    refused(&mut desk.house, &Command::Cancel { ticket: one_game }, 20);
    desk.difference.expect("house and sheet agree");
}

/// Nothing stands behind it: a finished ticket with nothing due is closed.
#[test]
fn code_23_claim() {
    let mut desk = desk();
    let ticket = desk.straight(0, 2, 100, &[1]);
    refused(&mut desk.house, &Command::Claim { ticket }, 23);
    desk.draw(&FIRST_TWENTY);
    refused(&mut desk.house, &Command::Claim { ticket }, 23);
    desk.draw(&LAST_TWENTY);
    assert_eq!(desk.pays(ticket), 300);
    refused(&mut desk.house, &Command::Claim { ticket }, 19);
    desk.difference.expect("house and sheet agree");
}

#[test]
fn codes_25_to_27_ball() {
    let mut house = House::seasoned(1, House::LAST_GAME - 1, 0);
    for number in 1..=19 {
        for bad in [0, 81, 255] {
            refused(&mut house, &Command::Ball { number: bad }, 25);
        }
        assert_eq!(house.command(&Command::Ball { number }), Answer::accepted(number.into(), 0));
        refused(&mut house, &Command::Ball { number: 1 }, 27);
        refused(&mut house, &Command::Ball { number }, 27);
    }
    accepted(&mut house, &Command::Ball { number: 80 });
    assert_eq!(house.game(), 10_000_000);
    refused(&mut house, &Command::Ball { number: 0 }, 25);
    refused(&mut house, &Command::Ball { number: 81 }, 25);
    refused(&mut house, &Command::Ball { number: 1 }, 26);
    refused(&mut house, &ways_ticket(0, 1, 100, 1), 17);
    // The other commands go on.
    accepted(&mut house, &Command::Open { day: 2 });
    accepted(&mut house, &Command::Expire);
}

/// 28, then 6, then 29.
#[test]
fn codes_28_6_29_transfer() {
    let mut desk = desk();
    let ticket = desk.straight(0, 1, 100, &[1]);
    desk.draw(&FIRST_TWENTY);
    desk.open(400);
    let transfer = |jackpot, cents| Command::Transfer { jackpot, cents };
    desk.ball(1);
    for jackpot in [0, 5, 7, 9, 255] {
        refused(&mut desk.house, &transfer(jackpot, 0), 28);
    }
    refused(&mut desk.house, &transfer(6, 0), 6);
    refused(&mut desk.house, &transfer(8, u32::MAX), 6);
    desk.draw(&LAST_TWENTY[..19]);
    refused(&mut desk.house, &transfer(6, 1), 29);
    assert_eq!(desk.expire(), Answer::accepted(1, 300));
    refused(&mut desk.house, &transfer(7, 0), 28);
    refused(&mut desk.house, &transfer(6, 0), 29);
    refused(&mut desk.house, &transfer(6, 301), 29);
    assert_eq!(desk.transfer(6, 100), Answer::accepted(6, 100_100));
    assert_eq!(desk.transfer(8, 200), Answer::accepted(8, 1_250_200));
    refused(&mut desk.house, &transfer(8, 1), 29);
    refused(&mut desk.house, &Command::Claim { ticket }, 19);
    desk.difference.expect("house and sheet agree");
}
