//! Two processes on one journal: the second is refused.

use std::env;
use std::fs;
use std::path::{Path, PathBuf};
use std::process::Command as Process;
use wulipday::{Command, JournalError, JournaledLounge};

/// Names the journal that the other process is to open.
const JOURNAL: &str = "WULIPDAY_TEST_JOURNAL";

/// What the other process does: this test, run again by the one below.
#[test]
fn opens_the_journal_that_is_named() {
    let Some(path) = env::var_os(JOURNAL) else { return };
    match JournaledLounge::open(Path::new(&path)) {
        Ok(mut house) => {
            let answer = house.give(&Command::Open { day: 2 }).expect("kept");
            println!("opened: {}", answer.expect("accepted"));
        }
        Err(error) => println!("refused: {error}"),
    }
}

fn other_process(path: &Path) -> String {
    let output = Process::new(env::current_exe().expect("this program"))
        .args(["--exact", "opens_the_journal_that_is_named", "--nocapture"])
        .env(JOURNAL, path)
        .output()
        .expect("the other process ends");
    String::from_utf8(output.stdout).expect("words")
}

#[test]
fn the_second_is_refused() {
    let path = PathBuf::from(env!("CARGO_TARGET_TMPDIR")).join("shared.journal");
    fs::remove_file(&path).ok();
    let mut house = JournaledLounge::open(&path).expect("a new journal");
    let said = other_process(&path);
    assert!(said.contains("refused: another process has the journal"), "{said}");
    // Nor is it opened twice by one process.
    assert!(matches!(JournaledLounge::open(&path), Err(JournalError::Locked)));

    house.give(&Command::Open { day: 1 }).expect("kept").expect("accepted");
    let kept = fs::read(&path).expect("a journal");
    let said = other_process(&path);
    assert!(said.contains("refused: another process has the journal"), "{said}");
    assert_eq!(fs::read(&path).expect("a journal"), kept);

    drop(house);
    let said = other_process(&path);
    assert!(said.contains("opened: day 2 begins"), "{said}");
    let mut house = JournaledLounge::open(&path).expect("nobody else has it");
    assert!(house.give(&Command::Open { day: 2 }).expect("kept").is_err());
}
