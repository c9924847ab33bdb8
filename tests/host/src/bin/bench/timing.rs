//! Runs the cases on both sides by turns.

use crate::case::Case;
use reference::roll::ANSWER_BYTES;
use reference::{run_roll, House};
use std::time::Instant;
use wulipday::Lounge;

pub const SAMPLES: usize = 51;

/// Nanoseconds.
pub struct Times {
    pub proved: f64,
    pub reference: f64,
}

trait Side {
    fn fresh() -> Self;

    /// Runs a roll into a book, and answers how many answers there are.
    fn run(&mut self, roll: &[u8], book: &mut [u8]) -> usize;
}

impl Side for Lounge {
    fn fresh() -> Lounge {
        Lounge::fresh()
    }

    fn run(&mut self, roll: &[u8], book: &mut [u8]) -> usize {
        self.roll(roll, book).answers
    }
}

impl Side for House {
    fn fresh() -> House {
        House::fresh()
    }

    fn run(&mut self, roll: &[u8], book: &mut [u8]) -> usize {
        run_roll(self, roll, book).answers
    }
}

/// A house where the measured roll begins. It comes there by its commands: in a
/// copy of another house the reference's lists would have no room to grow.
fn begin<S: Side>(case: &Case) -> S {
    let mut side = S::fresh();
    side.run(&case.before, &mut vec![0; case.before.len() * ANSWER_BYTES]);
    side
}

/// The answers to the measured roll.
fn answers<S: Side>(case: &Case) -> Vec<u8> {
    let mut book = vec![0; case.commands * ANSWER_BYTES];
    assert_eq!(begin::<S>(case).run(&case.measured, &mut book), case.commands, "{}", case.name);
    book
}

/// Both sides answer every command of the case, alike and with its code.
pub fn check(case: &Case) {
    let book = answers::<Lounge>(case);
    assert!(book == answers::<House>(case), "{}: the answers differ", case.name);
    let mut codes = book.chunks(ANSWER_BYTES).map(|record| record[1]);
    assert!(case.code.is_none_or(|code| codes.all(|found| found == code)), "{}", case.name);
}

/// Goes through all cases once for each sample, so that a busy moment of the
/// machine meets one sample of many cases and not many samples of one.
pub fn measure(cases: &[Case]) -> Vec<Times> {
    cases.iter().for_each(check);
    let mut times = vec![(Vec::new(), Vec::new()); cases.len()];
    for _sample in 0..SAMPLES {
        for (case, (proved, reference)) in cases.iter().zip(&mut times) {
            proved.push(sample::<Lounge>(case));
            reference.push(sample::<House>(case));
        }
    }
    let medians =
        |(proved, reference)| Times { proved: median(proved), reference: median(reference) };
    times.into_iter().map(medians).collect()
}

/// The time of one share of the measured roll.
fn sample<S: Side>(case: &Case) -> f64 {
    let mut book = vec![0; case.commands * ANSWER_BYTES];
    // Not measured: other cases have had the caches since the last sample.
    begin::<S>(case).run(&case.measured, &mut book);
    let mut houses: Vec<S> = (0..case.houses).map(|_| begin(case)).collect();
    let start = Instant::now();
    for house in &mut houses {
        house.run(&case.measured, &mut book);
    }
    let time = start.elapsed();
    time.as_nanos() as f64 / (case.houses * case.shares) as f64
}

fn median(mut times: Vec<f64>) -> f64 {
    times.sort_by(f64::total_cmp);
    times[times.len() / 2]
}
