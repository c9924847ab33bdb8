//! What a command is answered.

use crate::{Dollars, Refusal, ANSWER_BYTES};
use std::fmt;

/// What an accepted command is answered. Money is in cents.
#[derive(Clone, Copy, Debug, PartialEq, Eq)]
pub enum Answer {
    /// A day was begun.
    Opened {
        /// The day.
        day: u32,
    },
    /// A ticket was sold.
    Sold {
        /// Its number.
        ticket: u32,
        /// Its price.
        charge: u64,
    },
    /// Games of a ticket were taken off.
    Cancelled {
        /// Its number.
        ticket: u32,
        /// What is paid back.
        refund: u64,
    },
    /// A ball is in that is not the twentieth.
    BallIn {
        /// How many are in.
        balls: u32,
    },
    /// The twentieth ball is in, and the game is settled.
    Drawn {
        /// All prizes as cut, feature prizes and jackpot shares.
        won: u64,
    },
    /// A ticket was paid.
    Claimed {
        /// Its number.
        ticket: u32,
        /// What it is paid.
        paid: u64,
    },
    /// Tickets have expired, or none.
    Expired {
        /// How many.
        tickets: u32,
        /// What was due on them.
        cents: u64,
    },
    /// Unclaimed money was moved into a jackpot.
    Transferred {
        /// 6 or 8.
        jackpot: u32,
        /// What its primary pool is now.
        primary: u64,
    },
    /// A ticket was paid part way, and its games left have a new number.
    Collected {
        /// The new number.
        ticket: u32,
        /// What is paid.
        cents: u64,
    },
    /// A game was called off.
    CalledOff {
        /// The game.
        game: u32,
        /// What was paid for it, which is due on its tickets now.
        due: u64,
    },
}

impl fmt::Display for Answer {
    fn fmt(&self, formatter: &mut fmt::Formatter<'_>) -> fmt::Result {
        let dollars = |cents: u64| Dollars(i128::from(cents));
        match *self {
            Answer::Opened { day } => write!(formatter, "day {day} begins"),
            Answer::Sold { ticket, charge } => {
                write!(formatter, "ticket {ticket} is sold for {}", dollars(charge))
            }
            Answer::Cancelled { ticket, refund } => {
                write!(formatter, "ticket {ticket} is cancelled, {} is refunded", dollars(refund))
            }
            Answer::BallIn { balls: 1 } => write!(formatter, "1 ball is in"),
            Answer::BallIn { balls } => write!(formatter, "{balls} balls are in"),
            Answer::Drawn { won } => {
                write!(formatter, "20 balls are in, the game is drawn: {} is won", dollars(won))
            }
            Answer::Claimed { ticket, paid } => {
                write!(formatter, "ticket {ticket} is paid {}", dollars(paid))
            }
            Answer::Expired { tickets: 1, cents } => {
                write!(formatter, "1 ticket has expired with {} due", dollars(cents))
            }
            Answer::Expired { tickets, cents } => {
                write!(formatter, "{tickets} tickets have expired with {} due", dollars(cents))
            }
            Answer::Transferred { jackpot, primary } => {
                write!(formatter, "the jackpot of {jackpot} stands at {}", dollars(primary))
            }
            Answer::Collected { ticket, cents } => {
                write!(
                    formatter,
                    "{} is paid, the games left are ticket {ticket}'s",
                    dollars(cents)
                )
            }
            Answer::CalledOff { game, due } => {
                write!(formatter, "game {game} is called off, {} due", dollars(due))
            }
        }
    }
}

/// An answer as it stands in a book: [`ANSWER_BYTES`] bytes.
#[derive(Clone, Copy, Debug, PartialEq, Eq)]
pub struct Record {
    /// The command's byte.
    pub command: u8,
    /// 0, or the refusal's number.
    pub code: u8,
    /// By the command; 0 where it was refused.
    pub number: u32,
    /// By the command; 0 where it was refused.
    pub cents: u64,
}

impl Record {
    /// The record in these bytes.
    pub fn read(bytes: &[u8; ANSWER_BYTES]) -> Record {
        Record {
            command: bytes[0],
            code: bytes[1],
            number: u32::from_be_bytes(bytes[2..6].try_into().expect("4 bytes")),
            cents: u64::from_be_bytes(bytes[6..].try_into().expect("8 bytes")),
        }
    }

    /// The records of a book, which ends with its last answer.
    pub fn all(book: &[u8]) -> impl Iterator<Item = Record> + '_ {
        let records = book.chunks_exact(ANSWER_BYTES);
        records.map(|bytes| Record::read(bytes.try_into().expect("a record's bytes")))
    }

    /// What it says, or nothing where its code or its command is none.
    pub fn outcome(&self) -> Option<Result<Answer, Refusal>> {
        if self.code != 0 {
            return Refusal::from_number(self.code).map(Err);
        }
        let Record { number, cents, .. } = *self;
        let answer = match self.command {
            1 => Answer::Opened { day: number },
            2 | 8 => Answer::Sold { ticket: number, charge: cents },
            3 => Answer::Cancelled { ticket: number, refund: cents },
            4 if number == 20 => Answer::Drawn { won: cents },
            4 => Answer::BallIn { balls: number },
            5 => Answer::Claimed { ticket: number, paid: cents },
            6 => Answer::Expired { tickets: number, cents },
            7 => Answer::Transferred { jackpot: number, primary: cents },
            9 => Answer::Collected { ticket: number, cents },
            10 => Answer::CalledOff { game: number, due: cents },
            _ => return None,
        };
        Some(Ok(answer))
    }
}

#[cfg(test)]
mod tests {
    use super::*;

    #[test]
    fn a_code_or_a_command_that_is_none_says_nothing() {
        let of = |command, code| Record { command, code, number: 1, cents: 300 }.outcome();
        assert_eq!(of(5, 0), Some(Ok(Answer::Claimed { ticket: 1, paid: 300 })));
        assert_eq!(of(5, 23), Some(Err(Refusal::NotFinished)));
        for (command, code) in [(5, 24), (5, 1), (5, 36), (5, 255), (0, 0), (11, 0)] {
            assert_eq!(of(command, code), None, "command {command}, code {code}");
        }
    }
}
