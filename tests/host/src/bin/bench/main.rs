//! How long commands take, in the proved core and in the reference: one table of
//! medians and their ratio, proved / reference.
//!
//! Both run the same bytes from the same house, and their answers are compared
//! first. Bringing a house to where the measured roll begins is outside the
//! measured time. The two take turns, so that what else the machine does meets
//! both.
//!
//! With the argument `journal`: how many commands a second a journal keeps, with a
//! sync for each roll, and how many a replay runs.

mod case;
mod commands;
mod day;
mod growth;
mod journal;
mod settlement;
mod timing;

use case::Case;
use timing::{measure, SAMPLES};

fn main() {
    if std::env::args().nth(1).is_some_and(|argument| argument == "journal") {
        return journal::print();
    }
    let cores = std::thread::available_parallelism().map_or(1, usize::from);
    println!("{cores} cores, medians of {SAMPLES} samples, ratio = proved / reference");
    println!();
    println!("| Case | Proved | Reference | Ratio |");
    println!("|---|---|---|---|");
    let cases = cases();
    for (case, times) in cases.iter().zip(measure(&cases)) {
        let (proved, reference) = (shown(times.proved), shown(times.reference));
        let ratio = times.proved / times.reference;
        println!("| {} | {proved} | {reference} | {ratio:.2} |", case.name);
    }
}

fn cases() -> Vec<Case> {
    let mut cases = commands::cases();
    cases.extend(growth::cases());
    cases.extend(settlement::cases());
    cases.push(growth::expiry());
    cases.push(day::case());
    cases
}

/// Nanoseconds in the unit that suits them.
fn shown(nanoseconds: f64) -> String {
    match nanoseconds {
        time if time < 1_000.0 => format!("{time:.1} ns"),
        time if time < 1_000_000.0 => format!("{:.2} µs", time / 1_000.0),
        time => format!("{:.2} ms", time / 1_000_000.0),
    }
}

#[cfg(test)]
mod tests {
    use super::*;

    /// Every case runs, gets the codes it is about, and is answered alike.
    #[test]
    fn every_case_is_what_it_says() {
        for case in cases() {
            timing::check(&case);
        }
    }
}
