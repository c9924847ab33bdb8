//! Commands a second through a journal, and out of it again.

use crate::day::days;
use reference::roll::ANSWER_BYTES;
use std::fs;
use std::path::Path;
use std::time::{Duration, Instant};
use wulipday::{replay, JournaledLounge};

/// Days of play in the journals: some 55,000 commands.
const DAYS: u16 = 60;
/// A journal is written for so long, or until the days are over.
const WRITING: Duration = Duration::from_secs(5);
const REPLAYING: Duration = Duration::from_secs(2);

pub fn print() {
    println!("| Commands a roll | Kept a second, a sync each roll | Replayed a second |");
    println!("|---|---|---|");
    let commands = days(DAYS);
    for size in [1, 10, 100] {
        let (kept, replayed) = measure(&commands, size);
        println!("| {size} | {} | {} |", in_thousands(kept), in_thousands(replayed));
    }
}

fn measure(commands: &[Vec<u8>], size: usize) -> (f64, f64) {
    let path = std::env::current_dir().unwrap_or_default().join("bench.journal");
    fs::remove_file(&path).ok();
    let kept = keep(&path, commands, size);
    let replayed = replay_for_a_while(&path);
    fs::remove_file(&path).ok();
    (kept, replayed)
}

fn keep(path: &Path, commands: &[Vec<u8>], size: usize) -> f64 {
    let mut lounge = JournaledLounge::open(path).expect("a new journal");
    let mut book = vec![0; size * ANSWER_BYTES];
    let mut kept = 0;
    let begun = Instant::now();
    for roll in commands.chunks(size) {
        let report = lounge.roll(&roll.concat(), &mut book).expect("kept");
        kept += report.answers;
        if begun.elapsed() > WRITING {
            break;
        }
    }
    kept as f64 / begun.elapsed().as_secs_f64()
}

fn replay_for_a_while(path: &Path) -> f64 {
    let mut replayed = 0;
    let begun = Instant::now();
    while begun.elapsed() < REPLAYING {
        replayed += replay(path, |_, _| ()).expect("a whole journal").commands;
    }
    replayed as f64 / begun.elapsed().as_secs_f64()
}

/// Two digits that count, with commas.
fn in_thousands(number: f64) -> String {
    let unit = 10f64.powf(number.log10().floor() - 1.0);
    let rounded = ((number / unit).round() * unit) as u64;
    let digits = rounded.to_string();
    let commas = |place: usize| place > 0 && (digits.len() - place).is_multiple_of(3);
    let shown = digits.char_indices();
    shown
        .map(|(at, digit)| if commas(at) { format!(",{digit}") } else { digit.to_string() })
        .collect()
}

#[cfg(test)]
mod tests {
    use super::*;

    #[test]
    fn two_digits() {
        assert_eq!(in_thousands(1_249.9), "1,200");
        assert_eq!(in_thousands(3_456_789.0), "3,500,000");
        assert_eq!(in_thousands(987.0), "990");
    }

    /// Every size keeps what it is given and comes back.
    #[test]
    fn journals_are_kept_and_come_back() {
        let commands = days(1);
        assert!(commands.len() > 700, "{}", commands.len());
        let name = format!("wulipday-bench-{}.journal", std::process::id());
        let path = std::env::temp_dir().join(name);
        assert!(keep(&path, &commands, 100) > 0.0);
        let told = replay(&path, |_, _| ()).expect("a whole journal");
        fs::remove_file(&path).ok();
        assert_eq!(told.commands, commands.len() as u64);
    }
}
