//! "Settled examples" of document 01 on the true house, dot by dot.

mod checks;

use checks::examples;
use reference::{ledger, Flaw};

#[test]
fn each_settled_example_holds() {
    for (name, check) in examples::ALL {
        check(Flaw::None).unwrap_or_else(|found| panic!("{name}: {found}"));
    }
}

#[test]
fn the_printed_ledger_byte_for_byte() {
    assert_eq!(ledger(&examples::printed_roll()), examples::PRINTED_LEDGER);
}

/// "Three groups with types 3 make 6 ways; eight with types 255 make 255."
#[test]
fn counts_of_ways() {
    let marks = reference::ways::marks_of(&[&[1], &[2], &[3]]);
    assert_eq!(reference::ways::ways(&marks, 3, 3).len(), 6);
    let eight: Vec<Vec<u8>> = (1..=8).map(|number| vec![number]).collect();
    let eight: Vec<&[u8]> = eight.iter().map(Vec::as_slice).collect();
    let marks = reference::ways::marks_of(&eight);
    assert_eq!(reference::ways::ways(&marks, 8, 255).len(), 255);
}
