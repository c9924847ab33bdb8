//! Up to ticket 9,999,999: "9,999,999 tickets issued" (17), and for a collection 35.
//!
//! Ten million sales lead there, most of them cancelled at once: see
//! [`House::seasoned`].

use crate::writer::RollWriter;
use reference::House;

/// Sold and cancelled before the last numbers.
pub const CANCELLED: u32 = House::LAST_TICKET - 200;

/// The last 200 numbers: most are sold and win, two are issued by collections, of which
/// the second is of the first; and then none is left, to sell or to collect.
pub fn last_collections() -> Vec<u8> {
    let mut writer = RollWriter::on(House::seasoned(1, 0, CANCELLED));
    let balls: Vec<u8> = (1..=20).collect();
    let first = CANCELLED + 1;
    writer.straight(0, 1, 100, &[1]);
    writer.lucky_last(5, 100, 100, &[20]);
    for _ticket in 3..=197 {
        writer.straight(0, 3, 100, &[1]);
    }
    writer.straight(0, 4, 100, &[80]);
    writer.balls(&balls);
    writer.collect(first + 2);
    writer.balls(&balls[..1]);
    writer.collect(first + 3);
    for _time in 0..2 {
        // Finished, due nothing, closed; and two that could collect, if there were a number.
        for ticket in [first, first + 197, first + 2, first + 4, first + 1] {
            writer.collect(ticket);
        }
        writer.collect(House::LAST_TICKET);
        writer.collect(House::LAST_TICKET + 1);
        writer.collect(CANCELLED);
        writer.straight(0, 1, 100, &[1]);
        writer.lucky_last(1, 100, 100, &[20]);
        writer.draw_from(&balls);
    }
    writer.claim_last(201);
    writer.cancel(first + 1);
    for ticket in first..=House::LAST_TICKET {
        writer.collect(ticket);
    }
    writer.finish()
}
