//! A plain second implementation of document 01 and of what the customers have
//! asked for since, written from their texts alone.
//!
//! It is meant to be read beside the document, section by section, and to be
//! run beside the settlement core: same commands in, same answers out. So it
//! keeps every ticket ever sold and every game of every ticket, and it works
//! figures out anew where a core would keep a counter.
//!
//! | Section of document 01              | Module                           |
//! |-------------------------------------|----------------------------------|
//! | Ways                                | [`ways`]                         |
//! | Price                               | [`price`]                        |
//! | Prizes, and rule book section 18    | [`prizes`], [`schedule`]         |
//! | Jackpots                            | [`jackpots`], [`settlement`]     |
//! | Odd jackpot cents, asked since      | [`jackpots`]                     |
//! | Lucky Last, asked since             | [`draw`], [`price`], [`prizes`], [`schedule`] |
//! | Collecting part way, asked since    | [`ticket`], [`house`], [`sheet`] |
//! | A game called off, asked since      | [`ticket`], [`house`], [`sheet`] |
//! | The house: commands                 | [`command`], [`ticket`], [`house`] |
//! | The house: till                     | [`till`]                         |
//! | The house: the count sheet          | [`sheet`]                        |
//! | A year by the calendar, asked since | [`calendar`]                     |
//! | The roll                            | [`roll`], [`ledger`]             |
//! | Where each thing is checked         | [`house`], [`refusal`], [`roll`] |
//! | Traps                               | [`flaw`]                         |

pub mod calendar;
pub mod command;
pub mod draw;
pub mod flaw;
pub mod house;
pub mod jackpots;
pub mod ledger;
pub mod price;
pub mod prizes;
pub mod refusal;
pub mod roll;
pub mod schedule;
pub mod settlement;
pub mod sheet;
pub mod ticket;
pub mod till;
pub mod ways;

/// Whole cents. Signed and wide, so that no figure of the document, nor any
/// product in it, has to be watched for its size.
pub type Cents = i128;

pub use calendar::{Calendar, Date};
pub use command::{Answer, Command, Sale};
pub use draw::Draw;
pub use flaw::Flaw;
pub use house::House;
pub use jackpots::{Jackpot, Jackpots};
pub use ledger::ledger;
pub use roll::{run_roll, Report};
pub use sheet::CountSheet;
pub use ticket::{Closing, Kind, Standing, Terms, Ticket, TicketGame, Winnings};
