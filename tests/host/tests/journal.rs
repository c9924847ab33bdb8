//! Rolls on a house with a journal, and crashes: what the journal tells is the
//! house that was, and it goes on like one that never crashed. What disks do to a
//! journal's bytes is tested beside its code.

mod side_by_side;

use reference::roll::ANSWER_BYTES;
use reference::{run_roll, House};
use rolls::{damaged, mixed, Random};
use side_by_side::Pair;
use std::fs;
use std::path::PathBuf;
use wulipday::{replay, JournaledLounge, Lounge};

/// Bytes of a journal's header, and of what stands around the commands of an append.
const HEADER: usize = 32;
const AROUND: usize = 20;

/// An empty place for a journal.
fn place(name: &str) -> PathBuf {
    let path = PathBuf::from(env!("CARGO_TARGET_TMPDIR")).join(name);
    fs::remove_file(&path).ok();
    path
}

/// Rolls of all commands, and some that stop before their end.
fn sitting(seed: u64) -> Vec<Vec<u8>> {
    let mut rolls = mixed::mixed_set(seed, 4, 150);
    rolls.extend(damaged::damaged_set(seed, 2));
    rolls.extend(mixed::mixed_set(seed + 1, 2, 150));
    // Of some commands each.
    rolls.iter().flat_map(|roll| roll.chunks(700).map(<[u8]>::to_vec)).collect()
}

fn book_for(roll: &[u8]) -> Vec<u8> {
    vec![0; roll.len() * ANSWER_BYTES]
}

/// A journal, and for each of its appends where it ends and the commands so far.
struct Journal {
    bytes: Vec<u8>,
    ends: Vec<(usize, Vec<u8>)>,
}

impl Journal {
    /// Runs rolls with a journal.
    fn of(name: &str, rolls: &[Vec<u8>]) -> Journal {
        let path = place(name);
        let mut house = JournaledLounge::open(&path).expect("a new journal");
        let mut commands = Vec::new();
        let mut ends = vec![(0, Vec::new()), (HEADER, Vec::new())];
        for roll in rolls {
            let report = house.roll(roll, &mut book_for(roll)).expect("kept");
            commands.extend(&roll[..report.read]);
            let length = fs::metadata(&path).expect("a journal").len() as usize;
            let grown = length - ends[ends.len() - 1].0;
            assert_eq!(grown, if report.read > 0 { report.read + AROUND } else { 0 });
            ends.push((length, commands.clone()));
        }
        Journal { bytes: fs::read(&path).expect("a journal"), ends }
    }

    /// The last end within so many bytes, and the commands up to it.
    fn whole_within(&self, bytes: usize) -> &(usize, Vec<u8>) {
        self.ends.iter().rev().find(|(end, _)| *end <= bytes).expect("0 is an end")
    }

    fn commands(&self) -> &[u8] {
        &self.ends[self.ends.len() - 1].1
    }
}

/// Till, pools and live list are those of a reference house that has read these
/// commands.
fn stands_like(lounge: &Lounge, commands: &[u8]) {
    let mut house = House::fresh();
    run_roll(&mut house, commands, &mut book_for(commands));
    assert_eq!(Pair::of(lounge.clone(), house).compare(), Ok(()));
}

/// A crash that leaves the first bytes of a journal; then the rest is given again.
fn crash_and_go_on(name: &str, journal: &Journal, left: usize) {
    let path = place(name);
    fs::write(&path, &journal.bytes[..left]).expect("what the crash has left");
    let (end, answered) = journal.whole_within(left);
    let told = replay(&path, |_, _| ()).expect("a journal cut off is no damage");
    assert_eq!((told.whole, told.torn), (*end as u64, (left - end) as u64));
    stands_like(&told.lounge, answered);

    let mut house = JournaledLounge::open(&path).expect("a journal cut off is no damage");
    let kept = fs::read(&path).expect("a journal");
    assert_eq!(kept, journal.bytes[..(*end).max(HEADER)], "{left} bytes left");
    stands_like(house.lounge(), answered);

    let mut steady = Lounge::fresh();
    steady.roll(answered, &mut book_for(answered));
    let rest = &journal.commands()[answered.len()..];
    let (mut book, mut steady_book) = (book_for(rest), book_for(rest));
    let report = house.roll(rest, &mut book).expect("kept");
    assert_eq!(report, steady.roll(rest, &mut steady_book));
    assert!(book == steady_book, "{left} bytes left: the answers differ");

    // Another crash, between two rolls.
    drop(house);
    let again = JournaledLounge::open(&path).expect("a whole journal");
    stands_like(again.lounge(), journal.commands());
}

/// Crashes at both ends, about the first appends, and anywhere: most of these
/// places are within an append.
#[test]
fn crashes_everywhere() {
    let mut random = Random::new(0xC4A5);
    let mut within = 0;
    for seed in [1998, 2026] {
        let journal = Journal::of("sitting", &sitting(seed));
        let end = journal.bytes.len();
        let mut places =
            vec![0, 1, HEADER - 1, HEADER, HEADER + 1, HEADER + 4, end / 2, end - 1, end];
        places.extend((0..24).map(|_| random.below(end as u64) as usize));
        for left in places {
            crash_and_go_on("crashed", &journal, left);
            within += usize::from(journal.whole_within(left).0 < left);
        }
    }
    assert!(within >= 30, "{within} crashes within an append");
}

/// A byte that was changed: the journal is left as it is.
#[test]
fn a_damaged_journal_is_not_replayed() {
    let path = place("damaged");
    let mut journal = Journal::of("undamaged", &sitting(7));
    let (third, _) = journal.ends[3];
    journal.bytes[third + 40] ^= 0x10;
    fs::write(&path, &journal.bytes).expect("written");
    let error = JournaledLounge::open(&path).expect_err("damaged");
    let message = format!("byte {third}: damaged: an append differs from its checksum");
    assert_eq!(error.to_string(), message);
    assert_eq!(fs::read(&path).expect("a journal"), journal.bytes);
}
