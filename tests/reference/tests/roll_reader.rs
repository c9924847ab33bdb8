//! "The roll": the four stops, the records, the untouched rest of the book and
//! the program's print.

mod checks;

use checks::examples::{printed_roll, PRINTED_LEDGER};
use checks::STRAIGHT;
use reference::command::{length, Answer, Command};
use reference::ledger::LEDGER_BYTES;
use reference::roll::read_answer;
use reference::{ledger, run_roll, House, Report, Sale};

/// What the book holds before.
const BLANK: u8 = 0xA5;

/// Runs a roll on a fresh house with a book of so many bytes, and sees that the
/// book beyond its answers is untouched.
fn run(roll: &[u8], book_bytes: usize) -> (House, Report, Vec<u8>) {
    let mut house = House::fresh();
    let mut book = vec![BLANK; book_bytes];
    let report = run_roll(&mut house, roll, &mut book);
    assert!(book[14 * report.answers..].iter().all(|&byte| byte == BLANK));
    (house, report, book)
}

fn report(stop: u8, read: usize, answers: usize) -> Report {
    Report { stop, read, answers }
}

#[test]
fn the_printed_roll_fills_four_records() {
    let (_, found, book) = run(&printed_roll(), 60);
    assert_eq!(found, report(0, 102, 4));
    assert_eq!(book[..14], [1, 0, 0, 0, 0, 1, 0, 0, 0, 0, 0, 0, 0, 0]);
    assert_eq!(book[14..28], [2, 0, 0, 0, 0, 1, 0, 0, 0, 0, 0, 0, 0, 100]);
    assert_eq!(book[28..42], [3, 0, 0, 0, 0, 1, 0, 0, 0, 0, 0, 0, 0, 100]);
    assert_eq!(book[42..56], [5, 19, 0, 0, 0, 0, 0, 0, 0, 0, 0, 0, 0, 0]);
    assert_eq!(book[56..], [BLANK; 4]);
}

#[test]
fn stop_0_at_the_end_however_full_the_book() {
    assert_eq!(run(&[], 0).1, report(0, 0, 0));
    assert_eq!(run(&printed_roll(), 56).1, report(0, 102, 4));
}

#[test]
fn stop_1_at_an_unknown_byte() {
    for unknown in [0, 11, 255] {
        assert_eq!(run(&[unknown], 0).1, report(1, 0, 0));
        let roll = [&printed_roll()[..], &[unknown, 1, 2, 3]].concat();
        assert_eq!(run(&roll, 56).1, report(1, 102, 4));
    }
}

/// Every command cut off at every place, in a book without room: 2 comes
/// before 3.
#[test]
fn stop_2_with_too_few_bytes_left() {
    let roll = printed_roll();
    for byte in 1..=10 {
        for bytes in 1..length(byte).expect("known") {
            let mut cut_off = vec![0; bytes];
            cut_off[0] = byte;
            assert_eq!(run(&cut_off, 0).1, report(2, 0, 0));
        }
    }
    assert_eq!(run(&roll[..101], 100).1, report(2, 97, 3));
    assert_eq!(run(&roll[..50], 100).1, report(2, 3, 1));
}

#[test]
fn stop_3_with_a_book_too_full() {
    let roll = printed_roll();
    for (bytes, read, answers) in [(0, 0, 0), (13, 0, 0), (14, 3, 1), (27, 3, 1), (55, 97, 3)] {
        let (house, found, book) = run(&roll, bytes);
        assert_eq!(found, report(3, read, answers));
        assert_eq!(book.len(), bytes);
        // The command that found no room was not carried out.
        assert_eq!(house.today(), u16::from(answers > 0));
    }
}

/// A roll read in parts, each with a book of its own, ends where it ends in one.
#[test]
fn reading_on_where_the_book_was_full() {
    let roll = printed_roll();
    let (whole, _, whole_book) = run(&roll, 56);
    let mut house = House::fresh();
    let mut unread = &roll[..];
    let mut answers: Vec<u8> = Vec::new();
    loop {
        let mut book = [0; 14];
        let found = run_roll(&mut house, unread, &mut book);
        answers.extend(&book[..14 * found.answers]);
        unread = &unread[found.read..];
        if found.stop != 3 {
            break;
        }
    }
    assert_eq!(answers, whole_book);
    assert!(house == whole);
}

#[test]
fn commands_read_back_as_written() {
    let commands = [
        Command::Open { day: 0x1234 },
        Command::sell(3, 100, 0x12345678, &[&[1, 80], &[2, 3]], 0x81),
        Command::Cancel { ticket: 0x89ABCDEF },
        Command::Ball { number: 80 },
        Command::Claim { ticket: 0x01020304 },
        Command::Expire,
        Command::Transfer { jackpot: 8, cents: 0xFFFFFFFF },
        Command::lucky_last(100, 0x12345678, 0, &[1, 80]),
        Command::Sell(Sale::new(3, 1, 7, &[&[2], &[3]], 0x81).with_feature(0xFEDCBA98)),
        Command::Collect { ticket: 0x0A0B0C0D },
        Command::CallOff,
    ];
    for command in commands {
        let bytes = command.encode();
        assert_eq!(length(bytes[0]), Some(bytes.len()));
        assert_eq!(Command::decode(&bytes), command);
    }
    assert_eq!(Command::Open { day: 0x1234 }.encode(), [1, 0x12, 0x34]);
    assert_eq!(Command::CallOff.encode(), [10]);
    assert_eq!(
        Command::Transfer { jackpot: 8, cents: 0x12345678 }.encode(),
        [7, 8, 0x12, 0x34, 0x56, 0x78]
    );
}

/// A sale with a feature is a Sell with another byte before and four bytes behind.
#[test]
fn a_feature_stake_stands_behind_the_marks() {
    let plain = Command::sell(0, 2, 300, &[&[1, 80]], STRAIGHT).encode();
    let feature = Command::lucky_last(2, 300, 0x01020304, &[1, 80]).encode();
    assert_eq!((plain.len(), feature.len()), (89, 93));
    assert_eq!((plain[0], feature[0]), (2, 8));
    assert_eq!(feature[1..89], plain[1..]);
    assert_eq!(feature[89..], [1, 2, 3, 4]);
}

/// Its record begins with the byte 8, accepted or refused.
#[test]
fn records_of_sales_with_a_feature() {
    let mut roll = Command::lucky_last(1, 100, 100, &[1]).encode();
    roll.extend(Command::Open { day: 1 }.encode());
    roll.extend(Command::lucky_last(3, 100, 200, &[1]).encode());
    roll.extend(Command::lucky_last(3, 100, 50, &[1]).encode());
    let (_, found, book) = run(&roll, 56);
    assert_eq!(found, report(0, 3 * 93 + 3, 4));
    let answers: Vec<(u8, Answer)> = book.chunks(14).map(read_answer).collect();
    let open = (1, Answer::accepted(1, 0));
    let sold = (8, Answer::accepted(1, 900));
    assert_eq!(answers, [(8, Answer::refused(4)), open, sold, (8, Answer::refused(32))]);
}

/// Cents stand in eight bytes, high byte first.
#[test]
fn a_record_with_large_figures() {
    let mut roll = Command::Open { day: 1 }.encode();
    roll.extend(Command::sell(0, 1, 999_900, &[&[1]], STRAIGHT).encode());
    let (_, _, book) = run(&roll, 28);
    assert_eq!(book[14..], [2, 0, 0, 0, 0, 1, 0, 0, 0, 0, 0, 0x0F, 0x41, 0xDC]);
    assert_eq!(read_answer(&book[14..]), (2, Answer::accepted(1, 999_900)));
}

#[test]
fn the_ledger_prints_stops_and_minus_signs() {
    assert_eq!(ledger(&[]), "stop 0\ntill 0 1350000 0 0 0 0 0 1350000 0\n");
    assert_eq!(ledger(&[11]), "stop 1\ntill 0 1350000 0 0 0 0 0 1350000 0\n");
    assert_eq!(ledger(&[6, 1]), "6 4 0 0\nstop 2\ntill 0 1350000 0 0 0 0 0 1350000 0\n");
    assert_eq!(ledger(&printed_roll()), PRINTED_LEDGER);

    let mut roll = Command::Open { day: 1 }.encode();
    roll.extend(Command::sell(0, 1, 100, &[&[1]], STRAIGHT).encode());
    (1..=20).for_each(|number| roll.extend(Command::Ball { number }.encode()));
    let print = ledger(&roll);
    assert!(print.ends_with("4 0 20 300\nstop 0\ntill 100 1350000 0 0 300 0 0 1350000 -200\n"));
}

/// The program reads the first 65,536 bytes and no more.
#[test]
fn the_ledger_reads_65_536_bytes() {
    // One byte each: the last byte read is a command.
    let expiries = vec![0x06; LEDGER_BYTES + 5];
    let print = ledger(&expiries);
    assert_eq!(print.lines().count(), LEDGER_BYTES + 2);
    assert!(print.contains("\nstop 0\n"));
    // Two bytes each after one of one byte: the last byte read begins a command.
    let mut balls = vec![0x06];
    balls.extend([0x04, 0x01].repeat(LEDGER_BYTES));
    let print = ledger(&balls);
    assert_eq!(print.lines().count(), 1 + (LEDGER_BYTES - 1) / 2 + 2);
    assert!(print.contains("\nstop 2\n"));
    // An unknown byte out of reach is not seen.
    let mut unknown = vec![0x06; LEDGER_BYTES];
    unknown.push(0xFF);
    assert!(ledger(&unknown).contains("\nstop 0\n"));
}
