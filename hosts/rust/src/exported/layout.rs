//! The declarations have the layout that the header for C has: `tests/c/layout.c`
//! asserts it line by line, and every line of it is found here.

use super::{Counters, House, Jackpot, Listed, Pools, Report, Till, ANSWER_BYTES, MARKS, WORDS};
use std::mem::{offset_of, size_of};

const LAYOUT: &str = include_str!("../../../../tests/c/layout.c");
const HEADER: &str = include_str!("../../../../include/wulipday.h");

/// The lines of a struct: its size, and the place of each field.
macro_rules! lines_of {
    ($name:literal, $declared:ty, $($field:ident),*) => {
        [
            format!("SIZE({}, {});", $name, size_of::<$declared>()),
            $(format!(
                "PLACE({}, {}, {});",
                $name,
                stringify!($field),
                offset_of!($declared, $field)
            ),)*
        ]
    };
}

fn declared_lines() -> Vec<String> {
    let mut lines = Vec::new();
    lines.extend(lines_of!("wulipday_jackpot", Jackpot, primary, secondary, reimbursement, debt));
    lines.extend(lines_of!(
        "wulipday_counters",
        Counters,
        taken,
        seeds,
        paid,
        refunded,
        unclaimed,
        gained,
        lost
    ));
    lines.extend(lines_of!(
        "wulipday_house",
        House,
        day,
        game,
        balls,
        drawn,
        issued,
        live,
        six,
        eight,
        counters
    ));
    lines.extend(lines_of!("wulipday_report", Report, house, stop, read, answers));
    lines.extend(lines_of!(
        "wulipday_till_figures",
        Till,
        taken,
        seeds,
        paid,
        refunded,
        owed,
        held,
        unclaimed,
        pooled,
        retained,
        negative
    ));
    lines.extend(lines_of!("wulipday_jackpots", Pools, six, eight));
    lines.extend(lines_of!("wulipday_listed", Listed, code, count));
    lines
}

#[test]
fn the_same_layout_as_in_c() {
    let is_assertion = |line: &&str| line.starts_with("SIZE(") || line.starts_with("PLACE(");
    let asserted: Vec<&str> = LAYOUT.lines().filter(is_assertion).collect();
    assert_eq!(declared_lines(), asserted);
}

#[test]
fn the_same_lengths_as_in_c() {
    let lengths = [
        ("WULIPDAY_WORDS", WORDS),
        ("WULIPDAY_MARKS", MARKS),
        ("WULIPDAY_ANSWER_BYTES", ANSWER_BYTES),
    ];
    for (name, length) in lengths {
        let line = format!("#define {name} {length}");
        assert!(HEADER.lines().any(|found| found == line), "{line}");
    }
}
