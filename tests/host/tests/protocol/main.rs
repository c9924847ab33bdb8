//! docs/PROTOCOL.md held to the reference: its tables, byte by byte and code by
//! code, the order of the checks, and its worked examples, which the core runs too.

mod checks;
mod document;
mod examples;
mod order;
mod rules;

use document::Document;

const PROTOCOL: &str = include_str!("../../../../docs/PROTOCOL.md");

/// What is wrong, and where.
type Checked = Result<(), String>;

/// Everything that is checked of the document.
fn check(document: &Document) -> Checked {
    checks::commands(document)?;
    checks::answers(document)?;
    checks::stops(document)?;
    checks::refusals(document)?;
    checks::figures(document)?;
    checks::version(document)?;
    order::order(document)?;
    rules::limits(document)?;
    rules::kinds(document)?;
    rules::prices(document)?;
    rules::schedules(document)?;
    rules::feature(document)?;
    rules::cuts(document)?;
    rules::jackpots(document)?;
    rules::expiry(document)?;
    examples::worked(document)?;
    examples::by_hand(document)?;
    examples::journal(document)
}

#[test]
fn the_protocol_says_what_the_reference_does() {
    assert_eq!(check(&Document::of(PROTOCOL)), Ok(()));
}

/// The test is tested: whichever digit of a table or of an example is another, it
/// is seen.
#[test]
fn any_other_digit_is_seen() {
    let mut tried = 0;
    for (at, found) in PROTOCOL.char_indices().filter(|(_, found)| found.is_ascii_digit()) {
        if !document::is_checked(PROTOCOL, at) {
            continue;
        }
        let other = if found == '9' { '8' } else { (found as u8 + 1) as char };
        let damaged = format!("{}{other}{}", &PROTOCOL[..at], &PROTOCOL[at + 1..]);
        let line = PROTOCOL[..at].lines().count();
        let seen = check(&Document::of(&damaged));
        assert!(seen.is_err(), "line {line}: {other} for {found} is not seen");
        tried += 1;
    }
    assert!(tried > 1_500, "{tried}");
}

/// So are two codes that changed places, wherever they stand side by side.
#[test]
fn another_order_is_seen() {
    let orders = Document::of(PROTOCOL).table("Asked", "Checked in this order");
    let mut tried = 0;
    for row in orders {
        let codes: Vec<&str> = row[1].split(", ").collect();
        for place in 1..codes.len() {
            let mut swapped = codes.clone();
            swapped.swap(place - 1, place);
            let (line, other) = (row.join(" | "), [row[0], &swapped.join(", ")].join(" | "));
            let damaged = PROTOCOL.replace(&format!("| {line} |"), &format!("| {other} |"));
            assert!(damaged != PROTOCOL, "{line}");
            assert!(order::order(&Document::of(&damaged)).is_err(), "{other}");
            tried += 1;
        }
    }
    assert_eq!(tried, 1 + 11 + 5 + 3 + 3 + 3 + 13 + 5 + 1);
}

/// And the numbers of a live list.
#[test]
fn another_live_list_is_seen() {
    let list = "\nlive 00000001 00000002 ";
    for other in ["\nlive 00000002 00000001 ", "\nlive 00000001 00000001 "] {
        let damaged = PROTOCOL.replace(list, other);
        assert!(damaged != PROTOCOL, "{list}");
        assert!(check(&Document::of(&damaged)).is_err(), "{other}");
    }
}

/// The first of each two texts stands on the page, and the second in its place fails.
fn are_seen(others: &[(&str, &str)]) {
    for (text, other) in others {
        let damaged = PROTOCOL.replacen(text, other, 1);
        assert!(damaged != PROTOCOL, "{text}");
        assert!(check(&Document::of(&damaged)).is_err(), "{other}");
    }
}

/// And odd cents that go elsewhere: by number alone, by stake with the smaller
/// first, both to one way, and to the last of equal stakes.
#[test]
fn other_odd_cents_are_seen() {
    let others = [
        ("| 33,348; 66,697 |", "| 33,349; 66,696 |"),
        ("| 16,681; 50,046; 33,363 |", "| 16,682; 50,045; 33,363 |"),
        ("| 142,857; 285,716; 428,573; 142,857 |", "| 142,858; 285,715; 428,572; 142,858 |"),
        ("| 142,857; 285,716; 428,573; 142,857 |", "| 142,857; 285,715; 428,574; 142,857 |"),
        ("| 333,334; 333,334; 333,333 |", "| 333,333; 333,334; 333,334 |"),
    ];
    are_seen(&others);
}

/// And 24, which is no code any more, where it comes back: into the table, into an order, or
/// as a number that may be used.
#[test]
fn a_code_that_is_gone_is_seen() {
    let others = [
        ("| 25 | a ball has", "| 24 | nothing is due on the ticket | |\n| 25 | a ball has"),
        ("| Claim | 4, 18, 19, 23 |", "| Claim | 4, 18, 19, 23, 24 |"),
        ("| Claim | 4, 18, 19, 23 |", "| Claim | 4, 18, 19, 24, 23 |"),
        ("| Cancel | 4, 18, 19, 20, 21, 22 |", "| Cancel | 4, 18, 19, 20, 21, 22, 24 |"),
        ("Code 24 is not used:", "Code 24 is used:"),
        (" It will not be used again.", ""),
    ];
    are_seen(&others);
}

#[test]
fn other_names_are_seen() {
    let others = [
        ("stake 4, groups 1", "groups 1, stake 4"),
        ("| 03 | Cancel |", "| 03 | Claim |"),
        ("| jackpot 1, cents 4 |", "| cents 4, jackpot 1 |"),
        ("marks 80, feature stake 4", "feature stake 4, marks 80"),
        ("| 08 | Lucky Last |", "| 08 | Sell |"),
        ("| 09 | Collect |", "| 09 | Claim |"),
        ("| 0A | Call off |", "| 0A | Expire |"),
        ("| the ticket numbers are used up |", "| the ticket is used up |"),
        ("| number |", "| cents |"),
        ("| paid | claims", "| refunded | claims"),
        ("| the ticket is closed |", "| the ticket is open |"),
        ("| primary | 15 |", "| reimbursement | 15 |"),
        ("| 29 February 2000 |", "| 29 January 2000 |"),
        ("| 5 June 2177 |", "| 5 July 2177 |"),
    ];
    are_seen(&others);
}
