//! A lounge at work: all commands in no particular order, most of them in order,
//! and every refusal of the table now and then.
//!
//! Guests and balls both favour the same two dozen numbers, or nobody would
//! ever win anything worth a cut.

use crate::random::Random;
use crate::shapes;
use crate::writer::RollWriter;
use reference::ledger::LEDGER_BYTES;
use reference::{Calendar, Command, Date, House, Sale, Ticket};

/// So many numbers are favoured.
const FAVOURED: usize = 24;

/// Every so many rolls, one begins with a full lounge.
const RUSH_EVERY: usize = 10;

/// So many of a hundred steps call the game off, so that most games are drawn.
const CALLED_OFF: u64 = 2;

/// The same in a lounge with an alarm every few minutes.
const OFTEN_CALLED_OFF: u64 = 12;

/// Years from which the next leap year is not far, or 2100, which is none.
const EARLY_YEARS: [u32; 3] = [1999, 2000, 2003];
const LATE_YEARS: [u32; 3] = [2098, 2099, 2103];

/// Rolls of so many commands, each with a seed of its own; every tenth begins
/// with a rush of guests.
pub fn mixed_set(seed: u64, rolls: usize, commands: usize) -> Vec<Vec<u8>> {
    set(seed, rolls, commands, CALLED_OFF)
}

/// The same with many games called off.
pub fn often_called_off(seed: u64, rolls: usize, commands: usize) -> Vec<Vec<u8>> {
    set(seed ^ 0x0FF, rolls, commands, OFTEN_CALLED_OFF)
}

fn set(seed: u64, rolls: usize, commands: usize, called_off: u64) -> Vec<Vec<u8>> {
    let mut random = Random::new(seed);
    let one_roll = |index: usize| {
        let mut lounge = Lounge { called_off, ..Lounge::new(random.bits()) };
        if index % RUSH_EVERY == RUSH_EVERY - 1 {
            lounge.rush();
        }
        lounge.work(commands)
    };
    (0..rolls).map(one_roll).collect()
}

/// One roll of about so many commands, and no more than the program reads.
pub fn mixed(seed: u64, commands: usize) -> Vec<u8> {
    Lounge::new(seed).work(commands)
}

/// Rolls longer than the program reads, so that it stops within a command or
/// between two.
pub fn overlong(seed: u64) -> Vec<Vec<u8>> {
    let mut random = Random::new(seed ^ 0x10);
    (0..4).map(|_| overlong_roll(random.bits())).collect()
}

fn overlong_roll(seed: u64) -> Vec<u8> {
    let mut lounge = Lounge::new(seed);
    while lounge.writer.length() < LEDGER_BYTES + 500 {
        lounge.step();
    }
    lounge.writer.finish()
}

struct Lounge {
    writer: RollWriter,
    random: Random,
    /// 1 to 80, the favoured first.
    numbers: Vec<u8>,
    /// Of a hundred steps on an open day.
    called_off: u64,
}

impl Lounge {
    fn new(seed: u64) -> Lounge {
        let mut random = Random::new(seed);
        let numbers = random.numbers();
        Lounge { writer: RollWriter::new(), random, numbers, called_off: CALLED_OFF }
    }

    fn work(mut self, commands: usize) -> Vec<u8> {
        for _step in 0..commands {
            if self.writer.length() + 200 > LEDGER_BYTES {
                break;
            }
            self.step();
        }
        self.writer.finish()
    }

    /// Sales until the house has no room for more.
    fn rush(&mut self) {
        self.writer.open(1);
        while self.writer.house().live_tickets().count() < House::MOST_LIVE_TICKETS {
            self.sell();
        }
        for with_feature in [false, true] {
            let sale = self.good_sale(with_feature);
            self.writer.give(&Command::Sell(sale));
        }
    }

    fn step(&mut self) {
        let closed = self.writer.house().today() == 0;
        match self.random.below(100) {
            0..=29 if closed => self.open(),
            _ if closed => self.anything(),
            _ if self.random.percent(self.called_off) => drop(self.writer.call_off()),
            0..=29 => self.sell(),
            30..=38 => self.cancel(),
            39..=62 => self.balls(),
            63..=78 => self.claim(),
            79..=83 => self.collect(),
            84..=88 => self.open(),
            89..=92 => self.expire(),
            93..=96 => self.transfer(),
            _ => self.anything(),
        }
    }

    /// Mostly the next day, sometimes a year on, when what is left expires, and
    /// now and then the end of the next February.
    fn open(&mut self) {
        let today = self.writer.house().today();
        if self.random.percent(10) {
            let back = self.random.below(3) as u16;
            self.writer.open(today.saturating_sub(back));
        } else if today == 0 {
            self.open_first_day();
        } else if self.random.percent(20) {
            self.open_a_year_on();
            self.writer.expire();
        } else if self.random.percent(10) {
            let year = Calendar::GREGORIAN.date(today).year;
            let passed = today >= end_of_february(year, 0);
            self.open_end_of_february(if passed { year + 1 } else { year });
        } else {
            let days = self.random.between(1, 3) as u16;
            self.writer.open_after(days);
        }
    }

    /// The last day of some ticket that is due, or one soon after it.
    fn open_a_year_on(&mut self) {
        let house = self.writer.house();
        let due: Vec<u16> = house.live_tickets().filter_map(|ticket| ticket.finished_on).collect();
        let finished_on = if due.is_empty() { house.today() } else { self.random.pick(&due) };
        let last = Calendar::GREGORIAN.stands_through(finished_on);
        let day = last + self.random.pick(&[0, 0, 1, 1, 1, 30]);
        let tomorrow = self.writer.house().today().saturating_add(1);
        self.writer.open(u16::try_from(day).unwrap_or(u16::MAX).max(tomorrow));
    }

    /// The end of a February, mostly of an early one: days only ever rise.
    fn open_first_day(&mut self) {
        let year = match self.random.below(10) {
            0..=2 => 1998,
            3..=5 => self.random.pick(&EARLY_YEARS),
            6..=8 => self.random.pick(&LATE_YEARS),
            _ => self.random.between(1998, 2160) as u32,
        };
        self.open_end_of_february(year);
    }

    /// 27 February to 3 March.
    fn open_end_of_february(&mut self, year: u32) {
        let days = self.random.below(5) as u16;
        self.writer.open(end_of_february(year, days));
    }

    fn sell(&mut self) {
        let with_feature = self.random.percent(22);
        let mut sale = self.good_sale(with_feature);
        if self.random.percent(15) {
            self.spoil(&mut sale);
        } else if with_feature && self.random.percent(8) {
            self.spoil_feature(&mut sale);
        }
        self.writer.give(&Command::Sell(sale));
    }

    fn good_sale(&mut self, with_feature: bool) -> Sale {
        let games = self.games();
        let numbers = self.favoured_first();
        if with_feature {
            return shapes::sale_with_feature(&mut self.random, games, &numbers);
        }
        let shape = shapes::any_shape(&mut self.random);
        let stake = shapes::stake(&mut self.random, &shape, games);
        shapes::sale(&shape, games, stake, &numbers)
    }

    fn games(&mut self) -> u8 {
        match self.random.below(20) {
            0..=11 => 1,
            12..=16 => self.random.between(2, 5) as u8,
            17 => self.random.between(6, 49) as u8,
            _ => self.random.pick(&[49, 50, 51, 99, 100]),
        }
    }

    /// 1 to 80 with the favoured in front, but for a few.
    fn favoured_first(&mut self) -> Vec<u8> {
        let (favoured, others) = self.numbers.split_at(FAVOURED);
        let (mut front, mut back) = (favoured.to_vec(), others.to_vec());
        for number in &mut front {
            if self.random.percent(15) {
                let other = self.random.below(back.len() as u64) as usize;
                std::mem::swap(number, &mut back[other]);
            }
        }
        self.random.shuffle(&mut front);
        self.random.shuffle(&mut back);
        [front, back].concat()
    }

    /// Spoils one operand of a sale.
    fn spoil(&mut self, sale: &mut Sale) {
        let Sale { kind, games, stake, groups, types, marks, .. } = sale;
        let place = self.random.below(80) as usize;
        match self.random.below(10) {
            0 => *kind = self.random.between(4, 255) as u8,
            1 => *kind = self.random.below(4) as u8,
            2 => *games = self.random.pick(&[0, 101, 200, 255]),
            3 => *groups = self.random.pick(&[0, 9, 255, *groups + 1, *groups - 1]),
            4 => marks[place] = self.random.byte(),
            5 => marks.iter_mut().for_each(|mark| *mark = 0),
            6 => *types = self.random.byte(),
            7 => *stake += self.random.pick(&[1, 5, 10, 50]),
            8 => *stake = self.random.pick(&[0, 999_900, 1_000_000, u32::MAX]),
            _ => marks[..20].iter_mut().for_each(|mark| *mark = (*mark).max(1)),
        }
    }

    /// Spoils a feature stake, or asks for the feature on a ticket that mostly may
    /// not have it.
    fn spoil_feature(&mut self, sale: &mut Sale) {
        if self.random.percent(50) {
            let stakes = [0, 50, 101, 999_900, 4_294_967_200, u32::MAX];
            sale.feature_stake = Some(self.random.pick(&stakes));
        } else {
            let shape = shapes::any_shape(&mut self.random);
            let numbers = self.favoured_first();
            *sale = shapes::sale(&shape, sale.games, sale.stake, &numbers).with_feature(100);
        }
    }

    fn cancel(&mut self) {
        let today = self.writer.house().today();
        // A reissued ticket that was sold on an earlier day, now and then.
        let reissued = self.random.percent(10);
        let fits = |ticket: &Ticket| ticket.sold_on == today || reissued && !ticket.is_sold();
        let number = self.pick_ticket(|ticket| !ticket.is_finished() && fits(ticket));
        self.writer.cancel(number);
    }

    /// Mostly what can be collected, and now and then what can only be claimed.
    fn collect(&mut self) {
        let finished = self.random.percent(10);
        let number =
            self.pick_ticket(|ticket| ticket.due() > 0 && ticket.is_finished() == finished);
        self.writer.collect(number);
    }

    fn claim(&mut self) {
        let number = self.pick_ticket(|ticket| ticket.is_finished());
        self.writer.claim(number);
    }

    /// Mostly a live ticket of the wanted sort, else any number about those
    /// issued.
    fn pick_ticket(&mut self, wanted: impl Fn(&Ticket) -> bool) -> u32 {
        let live = self.writer.house().live_tickets();
        let fit: Vec<u32> = live.filter(|t| wanted(t)).map(|t| t.number).collect();
        if fit.is_empty() || self.random.percent(20) {
            self.random.below(u64::from(self.writer.house().issued()) + 3) as u32
        } else {
            self.random.pick(&fit)
        }
    }

    /// A few balls, or the rest of the game.
    fn balls(&mut self) {
        if self.random.percent(6) {
            let number = self.random.pick(&[0, 81, 255, self.numbers[0], self.numbers[1]]);
            self.writer.ball(number);
        }
        let order = self.favoured_first();
        if self.random.percent(60) {
            self.writer.draw_from(&order);
        } else {
            let few = self.random.between(1, 12) as usize;
            let missing = 20 - self.writer.house().balls().len();
            let new: Vec<u8> = order
                .into_iter()
                .filter(|number| !self.writer.house().balls().contains(number))
                .take(few.min(missing))
                .collect();
            self.writer.balls(&new);
        }
    }

    fn expire(&mut self) {
        self.writer.expire();
    }

    fn transfer(&mut self) {
        let unclaimed = self.writer.house().unclaimed().min(u32::MAX.into()) as u64;
        let cents = if self.random.percent(20) {
            self.random.pick(&[0, unclaimed.saturating_add(1), u32::MAX.into()])
        } else {
            self.random.below(unclaimed + 1).max(1)
        };
        let jackpot =
            if self.random.percent(10) { self.random.byte() } else { self.random.pick(&[6, 8]) };
        self.writer.transfer(jackpot, cents.min(u32::MAX.into()) as u32);
    }

    /// A known command with whatever operands.
    fn anything(&mut self) {
        let byte = self.random.between(1, 10) as u8;
        let length = reference::command::length(byte).expect("a known command");
        let mut bytes: Vec<u8> = (0..length).map(|_| self.random.byte()).collect();
        bytes[0] = byte;
        // Any day at all would leave few to come after it.
        if byte == reference::command::OPEN {
            bytes[1] = 0;
        }
        self.writer.give(&Command::decode(&bytes));
    }
}

/// 27 February of the year, or so many days after it.
fn end_of_february(year: u32, days_after: u16) -> u16 {
    let february = Calendar::GREGORIAN.day(Date { year, month: 2, day: 27 });
    u16::try_from(february).unwrap_or(u16::MAX).saturating_add(days_after)
}
