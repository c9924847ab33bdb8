//! How the cost of a command grows with the live tickets.

use crate::case::{twenty, Case};
use crate::settlement;
use reference::Command;
use rolls::RollWriter;

const LIVE: [u32; 3] = [1, 50, 200];

pub fn cases() -> Vec<Case> {
    let sorts = [closed_claims, paid_claims, collections, balls, settlement::uncut];
    let mut cases: Vec<Case> = sorts.into_iter().flat_map(|sort| LIVE.map(sort)).collect();
    cases.extend([1, 200].map(calls_off));
    cases
}

/// Ticket 1 is closed, and so many others are live.
fn closed_claims(live: u32) -> Case {
    let mut writer = RollWriter::opened();
    writer.straight(0, 1, 100, &[1]);
    writer.cancel(1);
    sell(&mut writer, live);
    let name = format!("claim of a closed ticket, refused, {live} live");
    Case::repeated(&name, writer.finish(), 19, 1_000, |_| Command::Claim { ticket: 1 })
}

/// So many winners in the order of their tickets, until none is live.
fn paid_claims(live: u32) -> Case {
    let mut writer = RollWriter::opened();
    sell(&mut writer, live);
    writer.balls(&twenty());
    let name = format!("claim, paid, the oldest of up to {live}");
    let claim = |index| Command::Claim { ticket: index as u32 + 1 };
    Case::repeated(&name, writer.finish(), 0, live as usize, claim)
}

/// So many winners in the order of their tickets, each of which is live again under a new
/// number.
fn collections(live: u32) -> Case {
    let mut writer = RollWriter::opened();
    for _ticket in 0..live {
        writer.straight(0, 2, 100, &[1]);
    }
    writer.balls(&twenty());
    let name = format!("collect, the oldest of up to {live}");
    let collect = |index| Command::Collect { ticket: index as u32 + 1 };
    Case::repeated(&name, writer.finish(), 0, live as usize, collect)
}

/// Games of so many tickets, each with a hundred, one after another up to the first free one.
fn calls_off(live: u32) -> Case {
    let mut writer = RollWriter::opened();
    for _ticket in 0..live {
        writer.straight(0, 100, 100, &[1]);
    }
    let name = match live {
        1 => "call off, 1 ticket".to_string(),
        _ => format!("call off, {live} tickets"),
    };
    Case::repeated(&name, writer.finish(), 0, 98, |_| Command::CallOff)
}

/// The first nineteen of the second game.
fn balls(live: u32) -> Case {
    let mut writer = RollWriter::opened();
    writer.balls(&twenty());
    sell(&mut writer, live);
    let name = format!("ball, not the twentieth, {live} live");
    Case::repeated(&name, writer.finish(), 0, 19, |index| Command::Ball { number: index as u8 + 1 })
}

/// One Expire for 200 winners of 1 January 1998 who did not come within the year:
/// day 367 is 2 January 1999.
pub fn expiry() -> Case {
    let mut writer = RollWriter::opened();
    sell(&mut writer, 200);
    writer.balls(&twenty());
    writer.open(367);
    let before = writer.length();
    assert_eq!(writer.expire().number, 200);
    let mut roll = writer.finish();
    roll.truncate(before);
    Case::repeated("expire, 200 tickets", roll, 0, 1, |_| Command::Expire)
}

fn sell(writer: &mut RollWriter, tickets: u32) {
    for _ticket in 0..tickets {
        writer.straight(0, 1, 100, &[1]);
    }
}
