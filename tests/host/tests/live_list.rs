//! The live list of the proved core: whole buffers, written out by hand, after
//! whatever issues or closes tickets.

use wulipday::{Answer, Command, Kind, Lounge, Refusal, Sale};

/// What a buffer holds before.
const BLANK: u8 = 0xA5;

/// Bytes of a buffer beyond its list, lent or not.
const BEYOND: usize = 16;

struct Desk {
    lounge: Lounge,
}

impl Desk {
    fn on_day_one() -> Desk {
        let mut desk = Desk { lounge: Lounge::fresh() };
        desk.open(1);
        desk
    }

    fn give(&mut self, command: Command) -> Answer {
        self.lounge.give(&command).expect("accepted")
    }

    fn open(&mut self, day: u16) {
        self.give(Command::Open { day });
    }

    /// A ticket on number 1, which is drawn in every game: $3 a game.
    fn sell_winner(&mut self, games: u8) -> u32 {
        self.sell(games, 1)
    }

    /// A ticket on number 80, which is never drawn: finished, it closes.
    fn sell_loser(&mut self) -> u32 {
        self.sell(1, 80)
    }

    fn sell(&mut self, games: u8, number: u8) -> u32 {
        let sale = Sale::new(Kind::Standard, games, 100).group(&[number]);
        match self.give(Command::Sell(sale)) {
            Answer::Sold { ticket, .. } => ticket,
            other => panic!("{other:?} to a sale"),
        }
    }

    fn cancel(&mut self, ticket: u32) {
        self.give(Command::Cancel { ticket });
    }

    fn draw(&mut self) {
        for number in 1..=20 {
            self.give(Command::Ball { number });
        }
    }

    fn claim(&mut self, ticket: u32) {
        self.give(Command::Claim { ticket });
    }

    /// Ticket by ticket, and the numbers that are issued.
    fn collect(&mut self, tickets: &[u32]) -> Vec<u32> {
        let collect = |&ticket: &u32| match self.give(Command::Collect { ticket }) {
            Answer::Collected { ticket, .. } => ticket,
            other => panic!("{other:?} to a collection"),
        };
        tickets.iter().map(collect).collect()
    }

    fn expire(&mut self) -> Answer {
        self.give(Command::Expire)
    }

    /// Sees that the list has these numbers where just their bytes are lent and
    /// where more are, and that with fewer it is refused and nothing is written.
    #[track_caller]
    fn lists(&self, numbers: &[u32]) {
        let bytes = 4 * numbers.len();
        let untouched = vec![BLANK; bytes + BEYOND];
        let list = written(numbers);
        for room in 0..=bytes + BEYOND {
            let mut buffer = untouched.clone();
            let answer = self.lounge.live_list(&mut buffer[..room]);
            if room < bytes {
                assert_eq!((answer, buffer), (Err(Refusal::ShortBuffer), untouched.clone()));
            } else {
                assert_eq!((answer, buffer), (Ok(numbers.len() as u32), list.clone()));
            }
        }
        assert_eq!(self.lounge.live_tickets(), numbers);
    }
}

/// A buffer that begins with these numbers and is blank beyond them.
fn written(numbers: &[u32]) -> Vec<u8> {
    let mut buffer: Vec<u8> = numbers.iter().flat_map(|number| number.to_be_bytes()).collect();
    buffer.extend([BLANK; BEYOND]);
    buffer
}

#[test]
fn no_live_tickets() {
    let mut desk = Desk { lounge: Lounge::fresh() };
    desk.lists(&[]);
    desk.open(1);
    desk.lists(&[]);
    // Cancelled, lost and claimed: none is left.
    let cancelled = desk.sell_winner(1);
    desk.cancel(cancelled);
    desk.lists(&[]);
    desk.sell_loser();
    let won = desk.sell_winner(1);
    desk.lists(&[2, 3]);
    desk.draw();
    desk.claim(won);
    desk.lists(&[]);
}

/// Each time, tickets with lower and with higher numbers stay.
#[test]
fn closed_in_the_middle() {
    let mut desk = Desk::on_day_one();
    // 1 March 1999.
    desk.open(425);
    assert_eq!([desk.sell_winner(2), desk.sell_winner(1), desk.sell_loser()], [1, 2, 3]);
    assert_eq!([desk.sell_winner(1), desk.sell_winner(1), desk.sell_loser()], [4, 5, 6]);
    assert_eq!([desk.sell_winner(2), desk.sell_winner(1)], [7, 8]);
    desk.lists(&[1, 2, 3, 4, 5, 6, 7, 8]);
    desk.cancel(4);
    desk.lists(&[1, 2, 3, 5, 6, 7, 8]);
    desk.draw();
    desk.lists(&[1, 2, 5, 7, 8]);
    desk.claim(5);
    desk.lists(&[1, 2, 7, 8]);

    desk.open(426);
    assert_eq!([desk.sell_loser(), desk.sell_winner(1)], [9, 10]);
    desk.lists(&[1, 2, 7, 8, 9, 10]);
    desk.draw();
    desk.lists(&[1, 2, 7, 8, 10]);
    // 1 March 2000.
    desk.open(791);
    assert_eq!(desk.expire(), Answer::Expired { tickets: 0, cents: 0 });
    desk.lists(&[1, 2, 7, 8, 10]);
    // 2 and 8 were finished on 1 March 1999, the others on the 2nd.
    desk.open(792);
    assert_eq!(desk.expire(), Answer::Expired { tickets: 2, cents: 600 });
    desk.lists(&[1, 7, 10]);
    assert_eq!([desk.sell_winner(1), desk.sell_loser(), desk.sell_winner(1)], [11, 12, 13]);
    desk.lists(&[1, 7, 10, 11, 12, 13]);
    desk.draw();
    desk.lists(&[1, 7, 10, 11, 13]);
}

/// The lowest and the highest number, by a claim, a settlement and a cancel.
#[test]
fn closed_at_the_ends() {
    let mut desk = Desk::on_day_one();
    assert_eq!([desk.sell_winner(1), desk.sell_winner(1), desk.sell_winner(1)], [1, 2, 3]);
    desk.draw();
    desk.claim(1);
    desk.lists(&[2, 3]);
    desk.claim(3);
    desk.lists(&[2]);
    assert_eq!([desk.sell_winner(1), desk.sell_loser()], [4, 5]);
    desk.lists(&[2, 4, 5]);
    desk.draw();
    desk.lists(&[2, 4]);
    assert_eq!(desk.sell_winner(1), 6);
    desk.cancel(6);
    desk.lists(&[2, 4]);
}

/// A cancel while drawing leaves the game being drawn, and the ticket live.
#[test]
fn cancelled_and_live() {
    let mut desk = Desk::on_day_one();
    assert_eq!([desk.sell_winner(1), desk.sell_winner(2), desk.sell_winner(1)], [1, 2, 3]);
    desk.give(Command::Ball { number: 1 });
    desk.cancel(2);
    desk.lists(&[1, 2, 3]);
}

/// The new number stands last, whichever was collected; also while drawing.
#[test]
fn collected() {
    let mut desk = Desk::on_day_one();
    (1..=5).for_each(|number| assert_eq!(desk.sell_winner(3), number));
    desk.draw();
    assert_eq!(desk.collect(&[3, 1]), [6, 7]);
    desk.lists(&[2, 4, 5, 6, 7]);
    assert_eq!(desk.sell_winner(1), 8);
    desk.give(Command::Ball { number: 1 });
    assert_eq!(desk.collect(&[5]), [9]);
    desk.lists(&[2, 4, 6, 7, 8, 9]);
    for number in 2..=20 {
        desk.give(Command::Ball { number });
    }
    assert_eq!(desk.collect(&[7, 2]), [10, 11]);
    desk.lists(&[4, 6, 8, 9, 10, 11]);
    desk.cancel(10);
    desk.draw();
    desk.claim(9);
    desk.lists(&[4, 6, 8, 11]);
}

/// A ticket that is due what it paid stays, one that nothing is due on goes: of 50 games
/// the last is free.
#[test]
fn called_off() {
    let mut desk = Desk::on_day_one();
    assert_eq!([desk.sell_loser(), desk.sell(50, 80), desk.sell_winner(2)], [1, 2, 3]);
    assert_eq!(desk.give(Command::CallOff), Answer::CalledOff { game: 1, due: 300 });
    desk.lists(&[1, 2, 3]);
    desk.claim(1);
    assert_eq!(desk.collect(&[2]), [4]);
    desk.lists(&[3, 4]);
    (2..=49).for_each(|_game| desk.draw());
    desk.lists(&[3, 4]);
    assert_eq!(desk.give(Command::CallOff), Answer::CalledOff { game: 50, due: 0 });
    desk.lists(&[3]);
}

/// Each of 200, from the last to the first: the list is as long as before.
#[test]
fn two_hundred_collected() {
    let mut desk = Desk::on_day_one();
    (1..=200).for_each(|number| assert_eq!(desk.sell_winner(2), number));
    desk.draw();
    for half in [100, 0] {
        let tickets: Vec<u32> = (half + 1..=half + 100).rev().collect();
        desk.collect(&tickets);
        let first_left = if half == 100 { 1 } else { 201 };
        let left = first_left..=100;
        let issued = 201..=if half == 100 { 300 } else { 400 };
        desk.lists(&left.chain(issued).collect::<Vec<u32>>());
    }
}

#[test]
fn two_hundred_live_tickets() {
    let mut desk = Desk::on_day_one();
    for number in 1..=200 {
        assert_eq!(desk.sell_winner(1), number);
    }
    desk.lists(&(1..=200).collect::<Vec<u32>>());
}

/// Each time, as many are sold as have closed, and 200 are live again.
#[test]
fn two_hundred_with_gaps() {
    let mut desk = Desk::on_day_one();
    for number in 1..=200 {
        let sold = if number % 2 == 0 { desk.sell_winner(1) } else { desk.sell_loser() };
        assert_eq!(sold, number);
    }
    desk.draw();
    let even = (1..=100).map(|half| 2 * half);
    desk.lists(&even.clone().collect::<Vec<u32>>());
    for number in 201..=300 {
        assert_eq!(desk.sell_winner(1), number);
    }
    desk.lists(&even.clone().chain(201..=300).collect::<Vec<u32>>());

    (91..=100).for_each(|half| desk.claim(2 * half));
    (251..=260).for_each(|ticket| desk.cancel(ticket));
    let left = even.take(90).chain(201..=250).chain(261..=300);
    desk.lists(&left.clone().collect::<Vec<u32>>());
    for number in 301..=320 {
        assert_eq!(desk.sell_winner(1), number);
    }
    desk.lists(&left.chain(301..=320).collect::<Vec<u32>>());
}

/// Numbers of two and of three bytes, with a ticket from the first day among them.
#[test]
fn high_byte_first() {
    let mut desk = Desk::on_day_one();
    assert_eq!(desk.sell_winner(1), 1);
    for number in 2..=65_534 {
        assert_eq!(desk.sell_winner(1), number);
        desk.cancel(number);
    }
    for number in 65_535..=65_537 {
        assert_eq!(desk.sell_winner(1), number);
    }
    let mut buffer = [BLANK; 18];
    assert_eq!(desk.lounge.live_list(&mut buffer), Ok(4));
    let list = [0, 0, 0, 1, 0, 0, 255, 255, 0, 1, 0, 0, 0, 1, 0, 1, BLANK, BLANK];
    assert_eq!(buffer, list);
    desk.lists(&[1, 65_535, 65_536, 65_537]);
}
