//! The commands, and their bytes.

use std::fmt;

/// Numbers on the board.
pub const NUMBERS: usize = 80;

const OPEN: u8 = 1;
const SELL: u8 = 2;
const CANCEL: u8 = 3;
const BALL: u8 = 4;
const CLAIM: u8 = 5;
const EXPIRE: u8 = 6;
const TRANSFER: u8 = 7;
const LUCKY_LAST: u8 = 8;
const COLLECT: u8 = 9;
const CALL_OFF: u8 = 10;

/// A command with its operands, each as wide as on a roll. Nothing about them has
/// been checked: the house refuses what is not in order.
#[derive(Clone, Debug, PartialEq, Eq)]
pub enum Command {
    /// Begins a day, later than the one before.
    Open {
        /// From 1 on, which is 1 January 1998.
        day: u16,
    },
    /// Sells a ticket. With a feature stake it is the command Lucky Last.
    Sell(Sale),
    /// Takes the games off that a ticket has left, and pays them back.
    Cancel {
        /// The ticket's number.
        ticket: u32,
    },
    /// Enters a ball of the current game; the twentieth settles the game.
    Ball {
        /// From 1 to 80.
        number: u8,
    },
    /// Pays a finished ticket.
    Claim {
        /// The ticket's number.
        ticket: u32,
    },
    /// Takes over what nobody has claimed by the same date a year on.
    Expire,
    /// Moves unclaimed money into a jackpot's primary pool.
    Transfer {
        /// 6 or 8, for the jackpot of as many numbers.
        jackpot: u8,
        /// How much.
        cents: u32,
    },
    /// Pays what is due on a ticket that has games left, closes its number, and goes on
    /// with the games left under the next number.
    ///
    /// ```
    /// use wulipday::{Answer, Command, Kind, Lounge, Refusal, Sale};
    ///
    /// let mut lounge = Lounge::fresh();
    /// lounge.give(&Command::Open { day: 1 })?;
    /// // One number for twenty games at $1, which wins $3 in the first.
    /// lounge.give(&Command::Sell(Sale::new(Kind::Standard, 20, 100).group(&[7])))?;
    /// for number in 1..=20 {
    ///     lounge.give(&Command::Ball { number })?;
    /// }
    /// let collected = lounge.give(&Command::Collect { ticket: 1 })?;
    /// assert_eq!(collected, Answer::Collected { ticket: 2, cents: 300 });
    /// // Nineteen games are left, and they are ticket 2's.
    /// assert_eq!(lounge.live_tickets(), [2]);
    /// assert_eq!(lounge.give(&Command::Collect { ticket: 1 }), Err(Refusal::Closed));
    /// assert_eq!(lounge.give(&Command::Collect { ticket: 2 }), Err(Refusal::NothingDueYet));
    /// # Ok::<(), Refusal>(())
    /// ```
    Collect {
        /// The ticket's number.
        ticket: u32,
    },
    /// Drops the current game with its balls. What each ticket paid for it is due on it, and
    /// the next game is current.
    ///
    /// ```
    /// use wulipday::{Answer, Command, Kind, Lounge, Refusal, Sale};
    ///
    /// let mut lounge = Lounge::fresh();
    /// lounge.give(&Command::Open { day: 1 })?;
    /// // One number for one game at $1, and $2 on its being the last ball.
    /// let sale = Sale::new(Kind::Standard, 1, 100).group(&[7]).lucky_last(200);
    /// lounge.give(&Command::Sell(sale))?;
    /// lounge.give(&Command::Ball { number: 7 })?;
    /// let called_off = lounge.give(&Command::CallOff)?;
    /// assert_eq!(called_off, Answer::CalledOff { game: 1, due: 300 });
    /// // The ball may come again in game 2, and nobody is to come for a draw of game 1.
    /// assert_eq!(lounge.give(&Command::Ball { number: 7 })?, Answer::BallIn { balls: 1 });
    /// let claimed = lounge.give(&Command::Claim { ticket: 1 })?;
    /// assert_eq!(claimed, Answer::Claimed { ticket: 1, paid: 300 });
    /// # Ok::<(), Refusal>(())
    /// ```
    CallOff,
}

/// What a ticket is sold on.
///
/// ```
/// use wulipday::{Kind, Sale};
///
/// // Three groups, alone and in pairs: six ways, for five games, at 50 cents a way.
/// let sale = Sale::new(Kind::Standard, 5, 50)
///     .group(&[3, 7])
///     .group(&[12, 18])
///     .group(&[1, 2])
///     .ways_of(&[1, 2]);
/// assert_eq!((sale.groups, sale.types), (3, 0b11));
/// assert_eq!(sale.numbers_of(2), [12, 18]);
/// ```
#[derive(Clone, Debug, PartialEq, Eq)]
pub struct Sale {
    /// The byte of a [`Kind`], or one that is refused.
    pub kind: u8,
    /// Games in a row, from 1 to 100.
    pub games: u8,
    /// Cents for each way and game.
    pub stake: u32,
    /// How many groups there are, from 1 to 8.
    pub groups: u8,
    /// Bit k - 1 stands for the ways of exactly k groups.
    pub types: u8,
    /// The group of each number from 1 to 80, or 0.
    pub marks: [u8; NUMBERS],
    /// Cents for each game on Lucky Last, where the ticket plays for it.
    pub feature_stake: Option<u32>,
}

/// The four kinds of tickets.
#[derive(Clone, Copy, Debug, PartialEq, Eq, Hash)]
pub enum Kind {
    /// Ways of 1 to 15 numbers.
    Standard,
    /// All ways of 6 numbers, or all of 8, for a share of that jackpot.
    Jackpot,
    /// Ways of 1 to 15 numbers, two ways or more, with prizes of its own for 6
    /// and 8 numbers.
    SpecialOne,
    /// Ways of 3 to 6 numbers, all or nothing.
    SpecialTwo,
}

impl Kind {
    /// All of them, by their bytes.
    pub const ALL: [Kind; 4] = [Kind::Standard, Kind::Jackpot, Kind::SpecialOne, Kind::SpecialTwo];

    /// The operand of a sale.
    pub fn byte(self) -> u8 {
        self as u8
    }

    /// The kind with this byte.
    pub fn from_byte(byte: u8) -> Option<Kind> {
        Kind::ALL.get(usize::from(byte)).copied()
    }

    /// As it is written in words.
    pub fn name(self) -> &'static str {
        match self {
            Kind::Standard => "standard",
            Kind::Jackpot => "jackpot",
            Kind::SpecialOne => "special-one",
            Kind::SpecialTwo => "special-two",
        }
    }
}

impl Sale {
    /// A ticket without groups yet, whose ways are its single groups.
    pub fn new(kind: Kind, games: u8, stake: u32) -> Sale {
        let (kind, marks) = (kind.byte(), [0; NUMBERS]);
        Sale { kind, games, stake, groups: 0, types: 1, marks, feature_stake: None }
    }

    /// Marks numbers from 1 to 80 as the next group.
    ///
    /// # Panics
    ///
    /// Where a number is not from 1 to 80.
    pub fn group(mut self, numbers: &[u8]) -> Sale {
        self.groups += 1;
        for &number in numbers {
            assert!((1..=80).contains(&number), "{number} is no number of the board");
            self.marks[usize::from(number) - 1] = self.groups;
        }
        self
    }

    /// Plays every way of so many groups, for each of the counts from 1 to 8.
    ///
    /// # Panics
    ///
    /// Where a count is not from 1 to 8.
    pub fn ways_of(mut self, counts: &[u32]) -> Sale {
        assert!(counts.iter().all(|count| (1..=8).contains(count)), "a ticket has 1 to 8 groups");
        self.types = counts.iter().fold(0, |types, count| types | 1 << (count - 1));
        self
    }

    /// Plays for Lucky Last too, at a feature stake of so many cents a game.
    ///
    /// ```
    /// use wulipday::{Command, Kind, Lounge, Sale};
    ///
    /// let mut lounge = Lounge::fresh();
    /// lounge.give(&Command::Open { day: 1 })?;
    /// // One number for one game at $1, and $2 on its being the last ball.
    /// let sale = Sale::new(Kind::Standard, 1, 100).group(&[20]).lucky_last(200);
    /// let sold = lounge.give(&Command::Sell(sale))?;
    /// assert_eq!(sold.to_string(), "ticket 1 is sold for $3.00");
    /// for number in 1..=20 {
    ///     lounge.give(&Command::Ball { number })?;
    /// }
    /// // $3 for the number, and $60 for each dollar on the last ball.
    /// let claimed = lounge.give(&Command::Claim { ticket: 1 })?;
    /// assert_eq!(claimed.to_string(), "ticket 1 is paid $123.00");
    /// # Ok::<(), wulipday::Refusal>(())
    /// ```
    pub fn lucky_last(mut self, feature_stake: u32) -> Sale {
        self.feature_stake = Some(feature_stake);
        self
    }

    /// The numbers that are marked with this group.
    pub fn numbers_of(&self, group: u8) -> Vec<u8> {
        let marked = (1..).zip(self.marks).filter(|&(_, mark)| mark == group);
        marked.map(|(number, _)| number).collect()
    }
}

impl Command {
    /// The first byte.
    pub fn byte(&self) -> u8 {
        match self {
            Command::Open { .. } => OPEN,
            Command::Sell(Sale { feature_stake: None, .. }) => SELL,
            Command::Sell(_) => LUCKY_LAST,
            Command::Cancel { .. } => CANCEL,
            Command::Ball { .. } => BALL,
            Command::Claim { .. } => CLAIM,
            Command::Expire => EXPIRE,
            Command::Transfer { .. } => TRANSFER,
            Command::Collect { .. } => COLLECT,
            Command::CallOff => CALL_OFF,
        }
    }

    /// How many bytes the command with this first byte takes on a roll, its own
    /// included.
    pub fn length(byte: u8) -> Option<usize> {
        match byte {
            OPEN => Some(3),
            SELL => Some(9 + NUMBERS),
            LUCKY_LAST => Some(9 + NUMBERS + 4),
            CANCEL | CLAIM | COLLECT => Some(5),
            BALL => Some(2),
            EXPIRE | CALL_OFF => Some(1),
            TRANSFER => Some(6),
            _ => None,
        }
    }

    /// The command as it stands on a roll.
    pub fn encode(&self) -> Vec<u8> {
        let mut bytes = vec![self.byte()];
        match self {
            Command::Open { day } => bytes.extend(day.to_be_bytes()),
            Command::Sell(sale) => {
                bytes.extend([sale.kind, sale.games]);
                bytes.extend(sale.stake.to_be_bytes());
                bytes.extend([sale.groups, sale.types]);
                bytes.extend(sale.marks);
                bytes.extend(sale.feature_stake.into_iter().flat_map(u32::to_be_bytes));
            }
            Command::Cancel { ticket }
            | Command::Claim { ticket }
            | Command::Collect { ticket } => {
                bytes.extend(ticket.to_be_bytes());
            }
            Command::Ball { number } => bytes.push(*number),
            Command::Expire | Command::CallOff => {}
            Command::Transfer { jackpot, cents } => {
                bytes.push(*jackpot);
                bytes.extend(cents.to_be_bytes());
            }
        }
        bytes
    }

    /// The command that bytes begin with, if they begin with a whole one. It takes
    /// [`Command::length`] of them.
    ///
    /// ```
    /// use wulipday::Command;
    ///
    /// assert_eq!(Command::decode(&[4, 80, 4]), Some(Command::Ball { number: 80 }));
    /// assert_eq!(Command::decode(&[4]), None);
    /// ```
    pub fn decode(bytes: &[u8]) -> Option<Command> {
        let length = Command::length(*bytes.first()?)?;
        let operands = bytes.get(1..length)?;
        Some(match bytes[0] {
            OPEN => Command::Open { day: u16::from_be_bytes([operands[0], operands[1]]) },
            SELL | LUCKY_LAST => Command::Sell(Sale::decode(operands)),
            CANCEL => Command::Cancel { ticket: four_bytes(operands) },
            BALL => Command::Ball { number: operands[0] },
            CLAIM => Command::Claim { ticket: four_bytes(operands) },
            EXPIRE => Command::Expire,
            TRANSFER => {
                Command::Transfer { jackpot: operands[0], cents: four_bytes(&operands[1..]) }
            }
            COLLECT => Command::Collect { ticket: four_bytes(operands) },
            _ => Command::CallOff,
        })
    }
}

impl Sale {
    /// The sale with these operands. Behind the marks of a Sell there is nothing.
    fn decode(operands: &[u8]) -> Sale {
        let (marks, feature) = operands[8..].split_at(NUMBERS);
        Sale {
            kind: operands[0],
            games: operands[1],
            stake: four_bytes(&operands[2..]),
            groups: operands[6],
            types: operands[7],
            marks: marks.try_into().expect("80 marks"),
            feature_stake: (!feature.is_empty()).then(|| four_bytes(feature)),
        }
    }
}

/// High byte first.
fn four_bytes(bytes: &[u8]) -> u32 {
    u32::from_be_bytes(bytes[..4].try_into().expect("4 bytes"))
}

/// In the words that [`crate::words`] reads, where words can say it.
impl fmt::Display for Command {
    fn fmt(&self, formatter: &mut fmt::Formatter<'_>) -> fmt::Result {
        match self {
            Command::Open { day } => write!(formatter, "open {day}"),
            Command::Sell(sale) => write!(formatter, "{sale}"),
            Command::Cancel { ticket } => write!(formatter, "cancel {ticket}"),
            Command::Ball { number } => write!(formatter, "balls {number}"),
            Command::Claim { ticket } => write!(formatter, "claim {ticket}"),
            Command::Expire => write!(formatter, "expire"),
            Command::Transfer { jackpot, cents } => write!(formatter, "transfer {jackpot} {cents}"),
            Command::Collect { ticket } => write!(formatter, "collect {ticket}"),
            Command::CallOff => write!(formatter, "call off"),
        }
    }
}

impl fmt::Display for Sale {
    fn fmt(&self, formatter: &mut fmt::Formatter<'_>) -> fmt::Result {
        match Kind::from_byte(self.kind) {
            Some(kind) => write!(formatter, "sell {}", kind.name())?,
            None => write!(formatter, "sell {}", self.kind)?,
        }
        let groups: Vec<String> = (1..=self.groups).map(|group| self.shown(group)).collect();
        write!(formatter, " games {} stake {}", self.games, self.stake)?;
        write!(formatter, " groups {} types {}", groups.join(" / "), self.types)?;
        if let Some(stake) = self.feature_stake {
            write!(formatter, " feature {stake}")?;
        }
        // What words can't say, and the house refuses.
        let strays = (1..).zip(self.marks).filter(|&(_, mark)| mark > self.groups);
        for (number, mark) in strays {
            let number: u8 = number;
            write!(formatter, " ({number} is marked {mark})")?;
        }
        Ok(())
    }
}

impl Sale {
    /// The numbers of a group, as they are written in words.
    fn shown(&self, group: u8) -> String {
        let numbers: Vec<String> = self.numbers_of(group).iter().map(u8::to_string).collect();
        if numbers.is_empty() {
            return "(none)".to_string();
        }
        numbers.join(",")
    }
}

#[cfg(test)]
mod tests {
    use super::*;

    fn commands() -> Vec<Command> {
        let sale = Sale::new(Kind::SpecialTwo, 100, 0x1234_5678).group(&[1, 80]).group(&[2]);
        let sale = sale.ways_of(&[1, 8]);
        vec![
            Command::Open { day: 0x1234 },
            Command::Sell(sale.clone()),
            Command::Cancel { ticket: 0x89AB_CDEF },
            Command::Ball { number: 80 },
            Command::Claim { ticket: 1 },
            Command::Expire,
            Command::Transfer { jackpot: 8, cents: u32::MAX },
            Command::Sell(sale.lucky_last(0xFEDC_BA98)),
            Command::Collect { ticket: 0x0A0B_0C0D },
            Command::CallOff,
        ]
    }

    #[test]
    fn commands_read_back_as_written() {
        for (byte, command) in (1..).zip(commands()) {
            let bytes = command.encode();
            assert_eq!((bytes[0], Command::length(byte)), (byte, Some(bytes.len())));
            assert_eq!(Command::decode(&bytes), Some(command.clone()));
            assert_eq!(Command::decode(&[bytes.clone(), vec![9]].concat()), Some(command));
            assert_eq!(Command::decode(&bytes[..bytes.len() - 1]), None);
        }
        assert_eq!(Command::decode(&[11, 0, 0, 0, 0]), None);
    }

    #[test]
    fn a_lucky_last_is_a_sell_and_its_feature_stake() {
        let sale = Sale::new(Kind::Standard, 1, 100).group(&[7]);
        let sell = Command::Sell(sale.clone()).encode();
        let lucky_last = Command::Sell(sale.lucky_last(0x0102_0304)).encode();
        assert_eq!(lucky_last, [&[8], &sell[1..], &[1, 2, 3, 4]].concat());
    }

    #[test]
    fn words_for_commands_read_back() {
        for command in commands() {
            assert_eq!(crate::words::encode(&command.to_string()), Ok(command.encode()));
        }
    }

    #[test]
    fn sales_that_words_cannot_say() {
        let mut sale = Sale::new(Kind::Standard, 1, 100).group(&[]).group(&[2]);
        sale.kind = 9;
        sale.marks[4] = 3;
        let shown = "sell 9 games 1 stake 100 groups (none) / 2 types 1 (5 is marked 3)";
        assert_eq!(sale.to_string(), shown);
    }
}
