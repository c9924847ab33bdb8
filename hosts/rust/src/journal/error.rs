//! Why a journal is refused, or a roll not answered.

use std::error::Error;
use std::fmt;
use std::io;

use super::{JOURNAL_FORMAT, LONGEST_ROLL, RULES};

/// Why a journal is refused, or a roll not answered.
#[derive(Debug)]
pub enum JournalError {
    /// The file could not be opened, read or cut back.
    Io(io::Error),
    /// Another process has the journal.
    Locked,
    /// The first bytes are not a journal's.
    NotAJournal,
    /// A journal of another format.
    OtherFormat {
        /// The format it names.
        found: u32,
    },
    /// A journal of other rules: the same bytes would be answered otherwise.
    OtherRules {
        /// The version of the rules that it names.
        found: u32,
    },
    /// Bytes have changed since they were written. Nothing was cut or skipped.
    Damaged {
        /// The byte where the damaged part begins.
        at: u64,
        /// What is there.
        what: &'static str,
    },
    /// The roll's commands could not be written. They are not answered, and the
    /// journal has to be opened again.
    NotKept(io::Error),
    /// A roll before this one was not kept: the journal has to be opened again.
    OpenAgain,
    /// The roll is longer than [`LONGEST_ROLL`]. Nothing was done.
    RollTooLong,
}

impl fmt::Display for JournalError {
    fn fmt(&self, formatter: &mut fmt::Formatter<'_>) -> fmt::Result {
        match self {
            JournalError::Io(error) => write!(formatter, "{error}"),
            JournalError::Locked => write!(formatter, "another process has the journal"),
            JournalError::NotAJournal => {
                write!(formatter, "byte 0: no journal: expected \"wulipday journal\"")
            }
            JournalError::OtherFormat { found } => {
                write!(formatter, "a journal of format {found}: expected format {JOURNAL_FORMAT}")
            }
            JournalError::OtherRules { found } => {
                write!(formatter, "a journal of rules {found}: expected rules {RULES}")
            }
            JournalError::Damaged { at, what } => write!(formatter, "byte {at}: damaged: {what}"),
            JournalError::NotKept(error) => write!(formatter, "the roll was not kept: {error}"),
            JournalError::OpenAgain => write!(formatter, "the journal has to be opened again"),
            JournalError::RollTooLong => {
                write!(formatter, "a roll of more than {LONGEST_ROLL} bytes")
            }
        }
    }
}

impl Error for JournalError {
    fn source(&self) -> Option<&(dyn Error + 'static)> {
        match self {
            JournalError::Io(error) | JournalError::NotKept(error) => Some(error),
            _ => None,
        }
    }
}

impl From<io::Error> for JournalError {
    fn from(error: io::Error) -> JournalError {
        JournalError::Io(error)
    }
}
