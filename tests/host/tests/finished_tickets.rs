//! Why a claim always has something to pay: a finished ticket is live just where something is
//! due on it. In each way in which a ticket finishes with nothing due it is closed, so that a
//! claim is answered 19; with something due it is live, and its claim pays that. Tickets of
//! every sort, on the core and on the reference.

use reference::roll::{read_answer, ANSWER_BYTES};
use reference::{Answer, Closing, Command, House, Sale};
use wulipday::Lounge;

/// For so many games; each wins by balls 1 to 20 and loses by 61 to 80.
const SORTS: [fn(u8) -> Sale; 4] = [
    |games| Sale::new(0, games, 100, &[&[1]], 1),
    |games| Sale::new(1, games, 200, &[&[1, 2, 3, 4, 5, 6]], 1),
    |games| Sale::new(0, games, 100, &[&[20]], 1).with_feature(300),
    |games| Sale::new(2, games, 100, &[&[1, 2, 3], &[4, 5, 6]], 1),
];

/// The core and the reference, given the same commands, with tickets of one sort.
struct Desk {
    lounge: Lounge,
    house: House,
    sort: fn(u8) -> Sale,
    /// What twentieth balls and games called off have made due, less what was collected.
    due: u64,
}

impl Desk {
    fn on_day_one(sort: fn(u8) -> Sale) -> Desk {
        let mut desk = Desk { lounge: Lounge::fresh(), house: House::fresh(), sort, due: 0 };
        desk.accepted(Command::Open { day: 1 });
        desk
    }

    /// Both must answer alike.
    fn give(&mut self, command: Command) -> Answer {
        let mut record = [0; ANSWER_BYTES];
        let report = self.lounge.command(&command.encode(), &mut record);
        assert_eq!(report.answers, 1);
        let answer = self.house.command(&command);
        assert_eq!(read_answer(&record), (command.byte(), answer), "{command:?}");
        answer
    }

    fn accepted(&mut self, command: Command) -> Answer {
        let answer = self.give(command.clone());
        assert_eq!(answer.code, 0, "{command:?}");
        answer
    }

    fn sell(&mut self, games: u8) -> u32 {
        let sale = (self.sort)(games);
        self.accepted(Command::Sell(sale)).number
    }

    fn ball(&mut self, number: u8) {
        self.due += self.accepted(Command::Ball { number }).cents;
    }

    /// The current game to its end, with what is missing of these balls.
    fn draw(&mut self, balls: std::ops::RangeInclusive<u8>) {
        let balls_in = self.house.balls().to_vec();
        balls.filter(|number| !balls_in.contains(number)).for_each(|number| self.ball(number));
        assert!(!self.house.is_drawing());
    }

    fn win(&mut self) {
        let before = self.due;
        self.draw(1..=20);
        assert!(self.due > before);
    }

    fn lose(&mut self, games: u8) {
        let before = self.due;
        (0..games).for_each(|_game| self.draw(61..=80));
        assert_eq!(self.due, before);
    }

    fn call_off(&mut self) {
        self.due += self.accepted(Command::CallOff).cents;
    }

    fn cancel(&mut self, ticket: u32) {
        self.accepted(Command::Cancel { ticket });
    }

    /// The new number.
    fn collect(&mut self, ticket: u32) -> u32 {
        let answer = self.accepted(Command::Collect { ticket });
        self.due -= answer.cents;
        answer.number
    }

    fn claim(&mut self, ticket: u32) -> Answer {
        self.give(Command::Claim { ticket })
    }

    /// Whether both list the ticket.
    fn is_live(&self, ticket: u32) -> bool {
        let live: Vec<u32> = self.house.live_tickets().map(|ticket| ticket.number).collect();
        assert_eq!(self.lounge.live_tickets(), live);
        live.contains(&ticket)
    }

    fn is_finished(&self, ticket: u32) -> bool {
        self.house.tickets()[ticket as usize - 1].is_finished()
    }
}

/// Brings a ticket to its end and answers its number.
type End = fn(&mut Desk) -> u32;

/// Each with nothing due, and why the ticket is closed.
const NOTHING_DUE: [(&str, Closing, End); 17] = [
    ("lost", Closing::NothingDue, |desk| {
        let ticket = desk.sell(1);
        desk.lose(1);
        ticket
    }),
    ("lost in each of three games", Closing::NothingDue, |desk| {
        let ticket = desk.sell(3);
        desk.lose(3);
        ticket
    }),
    ("lost in the last game, which is free", Closing::NothingDue, |desk| {
        let ticket = desk.sell(50);
        desk.lose(50);
        ticket
    }),
    ("cancelled before any game", Closing::NothingDue, |desk| {
        let ticket = desk.sell(3);
        desk.cancel(ticket);
        ticket
    }),
    ("cancelled while the game before its first is drawn", Closing::NothingDue, |desk| {
        desk.ball(61);
        let ticket = desk.sell(3);
        desk.cancel(ticket);
        ticket
    }),
    ("cancelled after games that were lost", Closing::NothingDue, |desk| {
        let ticket = desk.sell(3);
        desk.lose(2);
        desk.cancel(ticket);
        ticket
    }),
    ("cancelled but for the game being drawn, which is lost", Closing::NothingDue, |desk| {
        let ticket = desk.sell(3);
        desk.lose(1);
        desk.ball(61);
        desk.cancel(ticket);
        desk.lose(1);
        ticket
    }),
    ("the last game is free and called off", Closing::NothingDue, |desk| {
        let ticket = desk.sell(50);
        desk.lose(49);
        desk.call_off();
        ticket
    }),
    ("both free games are called off", Closing::NothingDue, |desk| {
        let ticket = desk.sell(100);
        desk.lose(98);
        desk.call_off();
        desk.ball(61);
        desk.call_off();
        ticket
    }),
    ("collected after a win", Closing::Collected, |desk| {
        let ticket = desk.sell(2);
        desk.win();
        desk.collect(ticket);
        ticket
    }),
    ("collected after a game called off", Closing::Collected, |desk| {
        let ticket = desk.sell(2);
        desk.call_off();
        desk.collect(ticket);
        ticket
    }),
    ("reissued and lost", Closing::NothingDue, |desk| {
        let ticket = desk.sell(2);
        desk.win();
        let reissued = desk.collect(ticket);
        desk.lose(1);
        reissued
    }),
    ("reissued and cancelled", Closing::NothingDue, |desk| {
        let ticket = desk.sell(2);
        desk.win();
        let reissued = desk.collect(ticket);
        desk.cancel(reissued);
        reissued
    }),
    ("reissued, and the last game is free and called off", Closing::NothingDue, |desk| {
        let ticket = desk.sell(50);
        desk.call_off();
        let reissued = desk.collect(ticket);
        desk.lose(48);
        desk.call_off();
        reissued
    }),
    ("claimed after a win", Closing::Claimed, |desk| {
        let ticket = desk.sell(1);
        desk.win();
        desk.accepted(Command::Claim { ticket });
        ticket
    }),
    ("claimed after a game called off", Closing::Claimed, |desk| {
        let ticket = desk.sell(1);
        desk.call_off();
        desk.accepted(Command::Claim { ticket });
        ticket
    }),
    ("expired", Closing::Expired, |desk| {
        let ticket = desk.sell(1);
        desk.win();
        desk.accepted(Command::Open { day: 367 });
        assert_eq!(desk.accepted(Command::Expire).number, 1);
        ticket
    }),
];

/// Each with something due: prizes, what was paid for a game called off, or both.
const SOMETHING_DUE: [(&str, End); 12] = [
    ("won", |desk| {
        let ticket = desk.sell(1);
        desk.win();
        ticket
    }),
    ("won, and lost in the last game", |desk| {
        let ticket = desk.sell(2);
        desk.win();
        desk.lose(1);
        ticket
    }),
    ("won and cancelled", |desk| {
        let ticket = desk.sell(3);
        desk.win();
        desk.cancel(ticket);
        ticket
    }),
    ("won and cancelled but for the game being drawn, which is lost", |desk| {
        let ticket = desk.sell(3);
        desk.win();
        desk.ball(61);
        desk.cancel(ticket);
        desk.lose(1);
        ticket
    }),
    ("won, and the last game is free and called off", |desk| {
        let ticket = desk.sell(50);
        desk.win();
        desk.lose(48);
        desk.call_off();
        ticket
    }),
    ("its only game is called off", |desk| {
        let ticket = desk.sell(1);
        desk.ball(61);
        desk.call_off();
        ticket
    }),
    ("called off, and lost in the last game", |desk| {
        let ticket = desk.sell(2);
        desk.call_off();
        desk.lose(1);
        ticket
    }),
    ("called off and cancelled", |desk| {
        let ticket = desk.sell(3);
        desk.call_off();
        desk.cancel(ticket);
        ticket
    }),
    ("called off in the last paid game and in the free one", |desk| {
        let ticket = desk.sell(50);
        desk.lose(48);
        desk.call_off();
        desk.call_off();
        ticket
    }),
    ("won, and the last game is called off", |desk| {
        let ticket = desk.sell(2);
        desk.win();
        desk.call_off();
        ticket
    }),
    ("reissued and won", |desk| {
        let ticket = desk.sell(2);
        desk.win();
        let reissued = desk.collect(ticket);
        desk.win();
        reissued
    }),
    ("reissued, and the last game is called off", |desk| {
        let ticket = desk.sell(2);
        desk.win();
        let reissued = desk.collect(ticket);
        desk.call_off();
        reissued
    }),
];

#[test]
fn with_nothing_due_a_finished_ticket_is_closed() {
    for (name, closing, end) in NOTHING_DUE {
        for sort in SORTS {
            let mut desk = Desk::on_day_one(sort);
            let ticket = end(&mut desk);
            assert!(desk.is_finished(ticket), "{name}");
            let closed_by = desk.house.tickets()[ticket as usize - 1].closing;
            assert_eq!(closed_by, Some(closing), "{name}");
            assert!(!desk.is_live(ticket), "{name}");
            assert_eq!(desk.claim(ticket), Answer::refused(19), "{name}");
            assert_eq!(desk.lounge.till().owed, 0, "{name}");
        }
    }
}

/// By the claim it is closed.
#[test]
fn with_something_due_a_finished_ticket_is_live_and_paid() {
    for (name, end) in SOMETHING_DUE {
        for sort in SORTS {
            let mut desk = Desk::on_day_one(sort);
            let ticket = end(&mut desk);
            let due = desk.due;
            assert!(desk.is_finished(ticket) && desk.is_live(ticket) && due > 0, "{name}");
            assert_eq!(desk.claim(ticket), Answer::accepted(ticket, due), "{name}");
            assert!(!desk.is_live(ticket), "{name}");
            assert_eq!(desk.claim(ticket), Answer::refused(19), "{name}");
        }
    }
}
