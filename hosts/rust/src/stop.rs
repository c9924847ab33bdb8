//! Why reading ended.

use std::fmt;

/// Why reading of a roll ended.
#[derive(Clone, Copy, Debug, PartialEq, Eq, Hash)]
pub enum Stop {
    /// Every byte was read.
    End,
    /// The next byte is no command's.
    UnknownByte,
    /// The next command has fewer bytes than it takes.
    TooFewBytes,
    /// The next command is whole, and the book has no room for its answer.
    BookFull,
}

impl Stop {
    /// All of them, by number.
    pub const ALL: [Stop; 4] = [Stop::End, Stop::UnknownByte, Stop::TooFewBytes, Stop::BookFull];

    /// The stop code.
    pub fn number(self) -> u8 {
        self as u8
    }

    /// The stop with this code.
    pub fn from_number(number: u8) -> Option<Stop> {
        Stop::ALL.get(usize::from(number)).copied()
    }
}

impl fmt::Display for Stop {
    fn fmt(&self, formatter: &mut fmt::Formatter<'_>) -> fmt::Result {
        formatter.write_str(match self {
            Stop::End => "the end of the roll",
            Stop::UnknownByte => "a byte that is no command's",
            Stop::TooFewBytes => "a command that is cut off",
            Stop::BookFull => "the book is full",
        })
    }
}
