//! The program `wulipday`, run as a person would run it.

use std::fs;
use std::io::Write;
use std::path::PathBuf;
use std::process::{Command as Process, Output, Stdio};
use std::sync::{Mutex, MutexGuard, PoisonError};
use wulipday::{words, JournaledLounge};

const SAMPLE: &str = concat!(env!("CARGO_MANIFEST_DIR"), "/../../samples/evening.txt");

static TURN: Mutex<()> = Mutex::new(());

/// The tests here take turns: a process that is just being started has the open files of the one that starts it, and with them a
/// journal's lock, until its own program begins.
fn turn() -> MutexGuard<'static, ()> {
    TURN.lock().unwrap_or_else(PoisonError::into_inner)
}

fn wulipday(arguments: &[&str], input: &[u8]) -> Output {
    let mut process = Process::new(env!("CARGO_BIN_EXE_wulipday"))
        .args(arguments)
        .stdin(Stdio::piped())
        .stdout(Stdio::piped())
        .stderr(Stdio::piped())
        .spawn()
        .expect("the program starts");
    let mut stdin = process.stdin.take().expect("its input is ours");
    // It need not read what it does not want.
    stdin.write_all(input).ok();
    drop(stdin);
    process.wait_with_output().expect("the program ends")
}

/// Ends well, and says nothing on standard error.
fn prints(arguments: &[&str], input: &[u8]) -> Vec<u8> {
    let output = wulipday(arguments, input);
    assert_eq!(String::from_utf8_lossy(&output.stderr), "", "{arguments:?}");
    assert_eq!(output.status.code(), Some(0), "{arguments:?}");
    output.stdout
}

/// Says what is wrong, with a status other than 0, and writes nothing.
fn refuses(arguments: &[&str], input: &[u8], message: &str) {
    let output = wulipday(arguments, input);
    let said = String::from_utf8_lossy(&output.stderr).into_owned();
    assert_eq!(said, format!("wulipday: {message}\n"), "{arguments:?}");
    assert_eq!((output.status.code(), output.stdout), (Some(1), vec![]), "{arguments:?}");
}

/// A file of this test's own.
fn place(name: &str) -> PathBuf {
    let path = PathBuf::from(env!("CARGO_TARGET_TMPDIR")).join(name);
    fs::remove_file(&path).ok();
    path
}

fn text(bytes: Vec<u8>) -> String {
    String::from_utf8(bytes).expect("words and figures")
}

#[test]
fn encode_writes_bytes_or_says_what_is_wrong() {
    let _turn = turn();
    assert_eq!(prints(&["encode"], b"open 258\nexpire\n"), [1, 1, 2, 6]);
    assert_eq!(prints(&["encode", "-"], b"open 258\nexpire\n"), [1, 1, 2, 6]);
    let roll = words::encode(&fs::read_to_string(SAMPLE).expect("the sample")).expect("commands");
    assert_eq!(prints(&["encode", SAMPLE], b""), roll);
    let reason = "a ball must be a number from 0 to 255, not \"x\"";
    let input = b"open 1\nballs 1 x\n";
    refuses(&["encode"], input, &format!("standard input: line 2: {reason}"));
    refuses(&["encode"], b"open 1\xFF", "standard input: byte 6: expected text in UTF-8");
    let absent = "no/such/file: No such file or directory (os error 2)";
    refuses(&["encode", "no/such/file"], b"", absent);
}

const RUN: &str = "\
expire                # 6 4 0 0         refused: no day has been opened
open 1                # 1 0 1 0         day 1 begins
sell jackpot games 2 stake 100 groups 1,2,3,4,5,6 types 1  # 2 0 1 200       \
ticket 1 is sold for $2.00
sell standard games 1 stake 100 groups 8,9 types 1 feature 200  # 8 0 2 300       \
ticket 2 is sold for $3.00
sell jackpot games 1 stake 100 groups 8,9,10,11,12,13 types 1 feature 200  # 8 31 0 0        \
refused: a Lucky Last ticket is a standard one with one way
balls 7               # 4 0 1 0         1 ball is in
cancel 1              # 3 0 1 100       ticket 1 is cancelled, $1.00 is refunded
claim 1               # 5 23 0 0        refused: the ticket has games left to draw
collect 1             # 9 34 0 0        refused: nothing is due on the ticket yet
call off              # 10 0 1 400      game 1 is called off, $4.00 due

till
  taken                       $5.00
  seeds                  $13,500.00
  paid                        $0.00
  refunded                    $1.00
  owed                        $4.00
  held                        $0.00
  unclaimed                   $0.00
  pooled                 $13,500.00
  retained                    $0.00
  taken and seeds        $13,505.00
  the other seven        $13,505.00

pools                   six numbers     eight numbers
  primary                 $1,000.00        $12,500.00
  secondary                   $0.00             $0.00
  reimbursement               $0.00             $0.00
  debt                    $1,000.00        $12,500.00
";

/// Words and bytes, told by option or by name; and what it prints is again a roll
/// in words.
#[test]
fn run_says_what_each_command_did() {
    let _turn = turn();
    let in_words = "expire\nopen 1\nsell jackpot games 2 stake 100 groups 1,2,3,4,5,6 types 1\n\
                    sell standard games 1 stake 100 groups 8,9 types 1 feature 200\n\
                    sell jackpot games 1 stake 100 groups 8,9,10,11,12,13 types 1 feature 200\n\
                    balls 7\ncancel 1\nclaim 1\ncollect 1\ncall off\n";
    let roll = words::encode(in_words).expect("commands");
    assert_eq!(text(prints(&["run", "--words"], in_words.as_bytes())), RUN);
    assert_eq!(text(prints(&["run"], &roll)), RUN);
    assert_eq!(text(prints(&["run", "--bytes", "-"], &roll)), RUN);
    let (words_file, roll_file) = (place("roll.txt"), place("roll.bin"));
    fs::write(&words_file, in_words).expect("written");
    fs::write(&roll_file, &roll).expect("written");
    let [words_name, roll_name] =
        [&words_file, &roll_file].map(|path| path.to_str().expect("text"));
    assert_eq!(text(prints(&["run", words_name], b"")), RUN);
    assert_eq!(text(prints(&["run", roll_name], b"")), RUN);
    let (again, _) = RUN.split_once("\n\n").expect("a table");
    assert_eq!(words::encode(again), Ok(roll));
}

#[test]
fn run_of_the_sample_says_its_answers() {
    let _turn = turn();
    let print = text(prints(&["run", SAMPLE], b""));
    let answers = include_str!("../../../crates/ledger/stdout");
    let (answers, till) = answers.split_once("stop 0\n").expect("the end of the roll");
    let said = print.lines().filter_map(|line| line.split_once("  # "));
    let said: Vec<String> = said
        .map(|(_, said)| said.split_whitespace().take(4).collect::<Vec<_>>().join(" "))
        .collect();
    assert_eq!(said, answers.lines().collect::<Vec<_>>());
    assert_eq!(till, "till 34850 1449985 5396125 16500 600 8000 0 1408620 -5345010\n");
    assert!(print.contains("\n  retained              -$53,450.10\n"), "{print}");
    assert!(print
        .contains("  # 4 0 20 5003600  20 balls are in, the game is drawn: $50,036.00 is won\n"));
    let collected = "  # 9 0 26 300      $3.00 is paid, the games left are ticket 26's\n";
    assert!(print.contains(collected), "{print}");
    let called_off = "  # 10 0 18 600     game 18 is called off, $6.00 due\n";
    assert!(print.contains(called_off), "{print}");
}

#[test]
fn run_refuses_what_is_no_roll() {
    let _turn = turn();
    let unknown = "standard input: byte 3: expected a command, 01 to 0A, not 2A";
    refuses(&["run"], &[1, 0, 1, 42], unknown);
    let cut_off = "standard input: byte 3: expected 89 bytes of command 02, not 2";
    refuses(&["run"], &[1, 0, 1, 2, 0], cut_off);
    let cut_off = "standard input: byte 0: expected 93 bytes of command 08, not 89";
    refuses(&["run"], &[8; 89], cut_off);
    let bad = "standard input: line 1: a number is missing: the day";
    refuses(&["run", "--words"], b"open\n", bad);
}

#[test]
fn replay_says_what_a_journal_tells() {
    let _turn = turn();
    let path = place("evening.journal");
    let name = path.to_str().expect("text");
    let mut house = JournaledLounge::open(&path).expect("a new journal");
    let roll = words::encode(&fs::read_to_string(SAMPLE).expect("the sample")).expect("commands");
    house.roll(&roll, &mut vec![0; roll.len() * 14]).expect("kept");
    refuses(&["replay", name], b"", &format!("{name}: another process has the journal"));
    drop(house);
    let print = text(prints(&["replay", name], b""));
    let run = text(prints(&["run", SAMPLE], b""));
    let (_, tables) = run.split_once("\n\n").expect("tables");
    let bytes = 32 + 20 + roll.len();
    let expected =
        format!("481 commands in {bytes} bytes\n\n{tables}\n3 live tickets\n  16 21 32\n");
    assert_eq!(print, expected);

    // A torn tail is left where it is: a host will cut it.
    let mut bytes = fs::read(&path).expect("a journal");
    bytes.extend([0, 0]);
    fs::write(&path, &bytes).expect("written");
    let torn = "2 bytes more of an append that was interrupted, which nobody was answered for\n";
    let first = expected.replacen("\n\n", &format!("\n{torn}\n"), 1);
    assert_eq!(text(prints(&["replay", name], b"")), first);
    assert_eq!(fs::read(&path).expect("a journal"), bytes);

    bytes[100] ^= 1;
    fs::write(&path, &bytes).expect("written");
    let damaged = "byte 32: damaged: an append differs from its checksum";
    refuses(&["replay", name], b"", &format!("{name}: {damaged}"));
    assert_eq!(fs::read(&path).expect("a journal"), bytes);
}

#[test]
fn other_arguments_get_the_usage() {
    let _turn = turn();
    let usage = prints(&["help"], b"");
    for arguments in [&[][..], &["play"], &["run", "--fast"], &["replay"], &["encode", "a", "b"]] {
        let output = wulipday(arguments, b"");
        assert_eq!((output.status.code(), output.stdout), (Some(2), vec![]), "{arguments:?}");
        assert_eq!(output.stderr, usage, "{arguments:?}");
    }
}
