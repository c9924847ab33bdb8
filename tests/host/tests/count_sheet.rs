//! Demand 3 on the compiled core: after every command of every roll its till and
//! its pools are those of the count sheet, which is fed the commands and their
//! codes alone; accepted answers are the sheet's; each command has only its own codes; no
//! ticket number is paid twice, by a claim or by a collection.

mod side_by_side;

use reference::command::length;
use reference::roll::{read_answer, ANSWER_BYTES};
use reference::till::balances;
use reference::{Cents, Command, CountSheet};
use rolls::coverage::wrong_answer;
use rolls::{calling_off, collecting, lucky_last, mixed, odd_cents, scenarios};
use side_by_side::{jackpot, reference_jackpot};
use std::collections::HashSet;
use wulipday::{Lounge, Stop};

/// The core and the sheet, and the tickets paid so far.
struct Count {
    lounge: Lounge,
    sheet: CountSheet,
    paid: HashSet<u32>,
}

impl Count {
    fn fresh() -> Count {
        Count { lounge: Lounge::fresh(), sheet: CountSheet::fresh(), paid: HashSet::new() }
    }

    fn give(&mut self, bytes: &[u8]) {
        let mut record = [0; ANSWER_BYTES];
        let report = self.lounge.command(bytes, &mut record);
        assert_eq!((report.stop, report.read, report.answers), (Stop::End, bytes.len(), 1));
        let (_, answer) = read_answer(&record);
        let command = Command::decode(bytes);
        assert_eq!(wrong_answer(&record), None, "{command:?}");
        let counted = self.sheet.feed(&command, answer.code);
        assert_eq!((answer.number, Cents::from(answer.cents)), counted, "{command:?}");
        let pays = match &command {
            Command::Claim { ticket } | Command::Collect { ticket } if answer.code == 0 => {
                Some(*ticket)
            }
            _ => None,
        };
        assert!(pays.is_none_or(|ticket| self.paid.insert(ticket)), "{command:?} pays again");
        self.compare(&command);
    }

    fn compare(&self, command: &Command) {
        let till = self.lounge.till().figures();
        assert_eq!(till, self.sheet.figures(), "{command:?}");
        assert!(balances(&till), "{command:?}");
        let (pools, counted) = (self.lounge.pools(), self.sheet.pools());
        assert_eq!(jackpot(&pools.six), reference_jackpot(&counted.six), "{command:?}");
        assert_eq!(jackpot(&pools.eight), reference_jackpot(&counted.eight), "{command:?}");
    }
}

#[test]
fn the_sheet_after_every_command() {
    let mut commands = 0;
    let mut rolls = mixed::mixed_set(1998, 700, 1_000);
    rolls.extend(scenarios::februaries(1998));
    rolls.extend(scenarios::keno_to_go(1998));
    rolls.extend(scenarios::cancels(1998));
    rolls.extend(lucky_last::numbers(1998));
    rolls.extend(lucky_last::beside_cuts(1998));
    rolls.extend(odd_cents::winners(1998));
    rolls.extend(odd_cents::ways(1998));
    rolls.extend(odd_cents::apart(1998));
    rolls.extend(odd_cents::free_games(1998));
    rolls.extend(collecting::moments(1998));
    rolls.extend(collecting::in_a_row(1998));
    rolls.extend(collecting::two_hundred(1998));
    rolls.extend(collecting::jackpots(1998));
    rolls.extend(mixed::often_called_off(1998, 40, 1_000));
    rolls.extend(calling_off::moments(1998));
    rolls.extend(calling_off::free_games(1998));
    rolls.extend(calling_off::in_a_row(1998));
    rolls.extend(calling_off::two_hundred(1998));
    rolls.extend(calling_off::jackpots(1998));
    for roll in rolls {
        let mut count = Count::fresh();
        let mut unread = &roll[..];
        while let Some(bytes) = unread.first().and_then(|&byte| unread.get(..length(byte)?)) {
            count.give(bytes);
            unread = &unread[bytes.len()..];
            commands += 1;
        }
    }
    assert!(commands >= 2_000_000, "{commands}");
}
