//! The ledger program, whole prints compared with the reference's.

use program::{ledger_program, run_ledger, run_ledger_in_pieces};
use reference::ledger;
use reference::ledger::LEDGER_BYTES;
use rolls::{damaged, everything, mixed, Random};
use std::fs::{File, OpenOptions};
use std::process::{Command, Stdio};
use std::time::{Duration, Instant};

/// Document 01's roll, byte by byte, and what it says the program prints.
const PRINTED: &str = "1 0 1 0\n2 0 1 100\n3 0 1 100\n5 19 0 0\nstop 0\n\
                       till 100 1350000 0 100 0 0 0 1350000 0\n";

fn printed_roll() -> Vec<u8> {
    let mut roll = vec![1, 0, 1, 2, 0, 1, 0, 0, 0, 100, 1, 1, 1];
    roll.extend([0; 79]);
    roll.extend([3, 0, 0, 0, 1, 5, 0, 0, 0, 1]);
    roll
}

/// Runs the program and compares its whole print with the reference's for what
/// the program is to read.
fn compare(name: &str, input: &[u8]) -> String {
    let print = run_ledger(input);
    let expected = ledger(&input[..input.len().min(LEDGER_BYTES)]);
    for (place, (line, other)) in print.lines().zip(expected.lines()).enumerate() {
        assert_eq!(line, other, "{name}, line {}", place + 1);
    }
    assert!(print == expected, "{name}: the program prints {} bytes", print.len());
    check_end(name, &print);
    print
}

/// The last two lines: `stop` with a code, `till` with nine figures.
fn check_end(name: &str, print: &str) {
    let lines: Vec<&str> = print.lines().collect();
    let [.., stop, till] = lines[..] else { panic!("{name}: {print:?}") };
    assert!(["stop 0", "stop 1", "stop 2"].contains(&stop), "{name}: {stop}");
    let figures = till.strip_prefix("till ").unwrap_or_else(|| panic!("{name}: {till}"));
    let figures: Result<Vec<i64>, _> = figures.split(' ').map(str::parse).collect();
    assert_eq!(figures.expect("figures").len(), 9, "{name}: {till}");
    assert!(print.ends_with('\n'), "{name}: the last line is not ended");
}

#[test]
fn the_printed_example() {
    assert_eq!(printed_roll().len(), 102);
    assert_eq!(run_ledger(&printed_roll()), PRINTED);
    compare("printed roll", &printed_roll());
    // Cut off at every place.
    for bytes in 0..printed_roll().len() {
        compare(&format!("{bytes} bytes"), &printed_roll()[..bytes]);
    }
}

/// A read or a write that fails ends the program with an error: a folder cannot be read, and
/// /dev/full takes no byte.
#[test]
fn a_failed_read_or_write_is_told() {
    let folder = Stdio::from(File::open(".").expect("a folder"));
    let full = Stdio::from(OpenOptions::new().write(true).open("/dev/full").expect("a device"));
    for (input, output) in [(folder, Stdio::piped()), (Stdio::null(), full)] {
        let run = Command::new(ledger_program()).stdin(input).stdout(output).output();
        let run = run.expect("the program runs");
        assert!(!run.status.success(), "{}", run.status);
        assert!(run.stdout.is_empty() && !run.stderr.is_empty());
    }
}

#[test]
fn nothing_at_all() {
    assert_eq!(run_ledger(&[]), "stop 0\ntill 0 1350000 0 0 0 0 0 1350000 0\n");
}

#[test]
fn bytes_of_no_sense() {
    let mut random = Random::new(0xB17E5);
    for size in [1, 2, 14, 100, 1_000, 65_535, 65_536, 65_537, 200_000] {
        let any: Vec<u8> = (0..size).map(|_| random.byte()).collect();
        compare(&format!("{size} bytes"), &any);
        // Known commands with any operands.
        let known: Vec<u8> = (0..size).map(|_| random.between(1, 10) as u8).collect();
        compare(&format!("{size} known bytes"), &known);
    }
}

#[test]
fn a_megabyte_of_zeros() {
    let print = compare("zeros", &vec![0; 1 << 20]);
    assert_eq!(print, "stop 1\ntill 0 1350000 0 0 0 0 0 1350000 0\n");
}

/// 1 to 20 again and again, in a house that is open or not.
fn full_roll_of_balls(start: &[u8]) -> Vec<u8> {
    let balls = (1..=20).cycle().flat_map(|number| [4, number]);
    start.iter().copied().chain(balls).take(LEDGER_BYTES).collect()
}

#[test]
fn a_full_roll_of_balls_in_no_time() {
    let refused = full_roll_of_balls(&[]);
    let accepted = full_roll_of_balls(&[1, 0, 1]);
    for (name, roll, lines) in [("refused", refused, 32_768), ("accepted", accepted, 32_767)] {
        let start = Instant::now();
        let print = run_ledger(&roll);
        let time = start.elapsed();
        assert_eq!(print.lines().count(), lines + 2, "{name}");
        assert!(time < Duration::from_millis(900), "{name}: {time:?}");
        compare(name, &roll);
    }
}

/// What comes after 65,536 bytes makes no difference, and is not waited for.
#[test]
fn more_than_it_reads() {
    let mut unknown_beyond = full_roll_of_balls(&[]);
    let print = compare("full", &unknown_beyond);
    for more in [1, 13, 4_096, 1_000_000] {
        unknown_beyond.resize(LEDGER_BYTES + more, 0xFF);
        assert!(compare("unknown bytes beyond", &unknown_beyond) == print);
    }
    // Most of these are cut off within a command.
    for (place, roll) in mixed::overlong(1998).iter().enumerate() {
        assert!(roll.len() > LEDGER_BYTES);
        compare(&format!("overlong {place}"), roll);
    }
    // Within a command for certain: the last byte read begins a claim.
    let mut cut_off = full_roll_of_balls(&[]);
    cut_off[LEDGER_BYTES - 2..].copy_from_slice(&[6, 5]);
    cut_off.extend([0, 0, 0, 1]);
    assert!(compare("cut off", &cut_off).contains("\nstop 2\n"));
}

/// A pipe hands over what is in it, be it a part of a command.
#[test]
fn input_that_comes_in_pieces() {
    for roll in mixed::mixed_set(5, 3, 1_000) {
        for piece in [1, 7, 89, 4_096] {
            assert!(run_ledger_in_pieces(&roll, piece) == ledger(&roll), "pieces of {piece}");
        }
    }
}

#[test]
fn rolls_of_the_generators() {
    for roll in everything(2026) {
        compare(&roll.name, &roll.bytes);
    }
    for (place, roll) in damaged::noise(2026, 100).iter().enumerate() {
        compare(&format!("noise {place}"), roll);
    }
}
