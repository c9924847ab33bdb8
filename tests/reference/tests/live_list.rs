//! "The roll": the live list, in whole buffers, after whatever issues or closes
//! tickets.

mod checks;

use checks::{Desk, FIRST_TWENTY};
use reference::command::{Answer, Command};
use reference::{Flaw, House};

/// What a buffer holds before.
const BLANK: u8 = 0xA5;

/// Sees that the list has these numbers in a buffer that just serves and in longer
/// ones, and that every shorter one is refused untouched.
#[track_caller]
fn check_list(house: &House, numbers: &[u32]) {
    let list: Vec<u8> = numbers.iter().flat_map(|number| number.to_be_bytes()).collect();
    for beyond in [0, 1, 4, 9] {
        let mut buffer = vec![BLANK; list.len() + beyond];
        assert_eq!(house.live_list(&mut buffer), Ok(numbers.len() as u32));
        assert_eq!(buffer, [&list[..], &vec![BLANK; beyond]].concat());
    }
    for bytes in 0..list.len() {
        let mut buffer = vec![BLANK; bytes];
        assert_eq!(house.live_list(&mut buffer), Err(30));
        assert_eq!(buffer, vec![BLANK; bytes]);
    }
}

/// Tickets on number 1, which is drawn, each for so many games; 0 stands for a
/// ticket for one game on number 80, which is not.
fn sell(desk: &mut Desk, tickets: &[u8]) {
    for &games in tickets {
        desk.straight(0, games.max(1), 100, if games > 0 { &[1] } else { &[80] });
    }
}

#[test]
fn no_live_tickets() {
    // No command: it is answered on day 0.
    check_list(&House::fresh(), &[]);
    let mut desk = Desk::new(Flaw::None);
    check_list(&desk.house, &[]);
    sell(&mut desk, &[1]);
    check_list(&desk.house, &[1]);
    desk.cancel(1);
    check_list(&desk.house, &[]);
}

/// Each time, tickets with lower and with higher numbers stay.
#[test]
fn closed_in_the_middle() {
    let mut desk = Desk::new(Flaw::None);
    // 1 March 1999.
    desk.open(425);
    sell(&mut desk, &[2, 1, 0, 1, 1, 0, 2, 1]);
    check_list(&desk.house, &[1, 2, 3, 4, 5, 6, 7, 8]);
    desk.cancel(4);
    check_list(&desk.house, &[1, 2, 3, 5, 6, 7, 8]);
    // Nothing is due on 3 and 6.
    desk.draw(&FIRST_TWENTY);
    check_list(&desk.house, &[1, 2, 5, 7, 8]);
    assert_eq!(desk.pays(5), 300);
    check_list(&desk.house, &[1, 2, 7, 8]);

    desk.open(426);
    sell(&mut desk, &[0, 1]);
    check_list(&desk.house, &[1, 2, 7, 8, 9, 10]);
    desk.draw(&FIRST_TWENTY);
    check_list(&desk.house, &[1, 2, 7, 8, 10]);
    // 1 March 2000.
    desk.open(791);
    assert_eq!(desk.expire(), Answer::accepted(0, 0));
    check_list(&desk.house, &[1, 2, 7, 8, 10]);
    // 2 and 8 were finished on 1 March 1999, the others on the 2nd.
    desk.open(792);
    assert_eq!(desk.expire(), Answer::accepted(2, 600));
    check_list(&desk.house, &[1, 7, 10]);
    sell(&mut desk, &[1, 1]);
    check_list(&desk.house, &[1, 7, 10, 11, 12]);
    desk.difference.expect("house and sheet agree");
}

/// A cancel while drawing leaves the game being drawn, and the ticket live.
#[test]
fn cancelled_and_live() {
    let mut desk = Desk::new(Flaw::None);
    sell(&mut desk, &[1, 2, 1]);
    desk.ball(1);
    assert_eq!(desk.cancel(2), Answer::accepted(2, 100));
    check_list(&desk.house, &[1, 2, 3]);
    desk.difference.expect("house and sheet agree");
}

/// Half of them have lost, and as many are sold again.
#[test]
fn two_hundred_live_tickets() {
    let mut desk = Desk::new(Flaw::None);
    for _pair in 1..=100 {
        sell(&mut desk, &[0, 1]);
    }
    check_list(&desk.house, &(1..=200).collect::<Vec<u32>>());
    desk.draw(&FIRST_TWENTY);
    let even = (1..=100).map(|half| 2 * half);
    check_list(&desk.house, &even.clone().collect::<Vec<u32>>());
    sell(&mut desk, &[1; 100]);
    check_list(&desk.house, &even.chain(201..=300).collect::<Vec<u32>>());
    desk.difference.expect("house and sheet agree");
}

#[test]
fn high_byte_first() {
    let mut house = House::seasoned(1, 0, 65_534);
    for _ticket in 0..3 {
        house.command(&Command::sell(0, 1, 100, &[&[1]], 1));
    }
    let mut buffer = [BLANK; 15];
    assert_eq!(house.live_list(&mut buffer), Ok(3));
    let list = [0, 0, 255, 255, 0, 1, 0, 0, 0, 1, 0, 1, BLANK, BLANK, BLANK];
    assert_eq!(buffer, list);
}
