//! One command of each sort, where the number of tickets does not matter.

use crate::case::{singles, Case};
use reference::Command;
use rolls::RollWriter;

pub fn cases() -> Vec<Case> {
    let eight: Vec<u8> = (1..=8).collect();
    vec![
        Case::repeated("claim of a ticket never issued, refused", opened(), 18, 1_000, |_| {
            Command::Claim { ticket: 1 }
        }),
        Case::repeated("open", Vec::new(), 0, 1_000, |index| Command::Open {
            day: index as u16 + 1,
        }),
        Case::repeated("ball, games without tickets", opened(), 0, 2_000, |index| Command::Ball {
            number: (index % 20) as u8 + 1,
        }),
        sales("sale of one way", &Command::sell(0, 1, 100, &[&[1, 2, 3]], 1)),
        sales("sale of one way with a feature", &Command::lucky_last(1, 100, 100, &[1, 2, 3])),
        sales("sale of 255 ways", &Command::sell(0, 1, 100, &singles(&eight), 255)),
    ]
}

fn opened() -> Vec<u8> {
    RollWriter::opened().finish()
}

/// 200 sales fill the house.
fn sales(name: &str, sale: &Command) -> Case {
    Case::repeated(name, opened(), 0, 200, |_| sale.clone())
}
