//! A proved keno settlement core for hosts in Rust.
//!
//! The core sells, cancels, draws, settles, pays, reissues and expires tickets, calls games
//! off, and answers the till to the cent. It is written in Rattle and proved correct; this crate
//! links the static library that `rt lib` writes in crates/host, and is all that a
//! host needs beside it. What commands mean stands in `docs/PROTOCOL.md`.
//!
//! - [`Lounge`] is a house with its tickets. It owns what the core keeps and lends
//!   it to nobody, so that a house only ever comes from a fresh one by commands,
//!   which is what the proofs rely on.
//! - [`Command`], [`Answer`] and [`Refusal`] are the commands and what comes back.
//! - [`JournaledLounge`] keeps a journal of the commands, from which the house is
//!   had again after a crash.
//! - [`words`] reads rolls of commands that are written in words.
//!
//! ```
//! use wulipday::{Answer, Command, Kind, Lounge, Refusal, Sale};
//!
//! let mut lounge = Lounge::fresh();
//! assert_eq!(lounge.give(&Command::Expire), Err(Refusal::NoDay));
//! lounge.give(&Command::Open { day: 1 })?;
//! // Three numbers for one game at $1.
//! let sale = Sale::new(Kind::Standard, 1, 100).group(&[7, 8, 9]);
//! let sold = lounge.give(&Command::Sell(sale))?;
//! assert_eq!(sold, Answer::Sold { ticket: 1, charge: 100 });
//! for number in 1..=20 {
//!     lounge.give(&Command::Ball { number })?;
//! }
//! let claimed = lounge.give(&Command::Claim { ticket: 1 })?;
//! assert_eq!(claimed.to_string(), "ticket 1 is paid $36.00");
//! assert_eq!(lounge.till().paid, 3_600);
//! # Ok::<(), Refusal>(())
//! ```

// The module that declares the exported functions allows it for itself.
#![deny(unsafe_code)]

mod answer;
mod command;
mod exported;
mod journal;
mod lounge;
mod money;
mod refusal;
mod stop;
pub mod words;

pub use answer::{Answer, Record};
pub use command::{Command, Kind, Sale, NUMBERS};
pub use exported::{Jackpot, Pools, Rows, RowsOfMarks, Till, ANSWER_BYTES, MARKS, WORDS};
pub use journal::{
    replay, JournalError, JournaledLounge, Replayed, JOURNAL_FORMAT, LONGEST_ROLL, RULES,
};
pub use lounge::{Lounge, Report};
pub use money::Dollars;
pub use refusal::Refusal;
pub use stop::Stop;
