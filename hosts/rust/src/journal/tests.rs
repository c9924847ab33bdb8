//! What disks do to journals. Nothing that was answered is ever lost or changed,
//! and no flipped bit passes.

use super::*;
use crate::words;
use std::sync::{Arc, Mutex};

const SAMPLE: &str = include_str!("../../../../samples/evening.txt");

/// The sample's lines, a roll each.
fn rolls() -> Vec<Vec<u8>> {
    let lines = words::read_lines(SAMPLE).expect("no bad line");
    let roll = |line: &words::Line| line.commands.iter().flat_map(Command::encode).collect();
    lines.iter().map(roll).filter(|roll: &Vec<u8>| !roll.is_empty()).collect()
}

/// A journal, the place where each of its appends ends, and the house there.
struct Sitting {
    bytes: Vec<u8>,
    ends: Vec<(usize, Lounge)>,
}

fn sitting(rolls: &[Vec<u8>]) -> Sitting {
    let mut bytes = format::header().to_vec();
    let mut lounge = Lounge::fresh();
    let mut chain = format::first_chain();
    let mut ends = vec![(bytes.len(), lounge.clone())];
    for roll in rolls {
        run(&mut lounge, roll).expect("whole commands");
        let (append, after) = format::append(chain, roll);
        bytes.extend(append);
        chain = after;
        ends.push((bytes.len(), lounge.clone()));
    }
    Sitting { bytes, ends }
}

impl Sitting {
    /// What bytes of which the first ones are this journal's must come back as.
    fn whole_within(&self, bytes: usize) -> Option<&(usize, Lounge)> {
        self.ends.iter().rev().find(|(end, _)| *end <= bytes)
    }
}

fn opened(bytes: &[u8]) -> Result<Option<Played>, JournalError> {
    play(bytes, |_| ())
}

/// The journal comes back as far as the bytes that are given.
fn comes_back(bytes: &[u8], expected: Option<&(usize, Lounge)>) {
    let played = opened(bytes).unwrap_or_else(|error| panic!("{} bytes: {error}", bytes.len()));
    let found = played.map(|played| (played.whole as usize, played.lounge));
    assert!(found.as_ref() == expected, "{} bytes", bytes.len());
}

fn is_refused(bytes: &[u8], what: &str) {
    assert!(opened(bytes).is_err(), "{what} passes");
}

/// Numbers without a pattern, the same in each run.
fn noise(seed: u64) -> impl Iterator<Item = u8> {
    let mut state = seed;
    std::iter::repeat_with(move || {
        state =
            state.wrapping_mul(6_364_136_223_846_793_005).wrapping_add(1_442_695_040_888_963_407);
        (state >> 56) as u8
    })
}

#[test]
fn a_whole_journal_comes_back() {
    let sitting = sitting(&rolls());
    assert!(sitting.bytes.len() > 5_000, "{} bytes", sitting.bytes.len());
    comes_back(&sitting.bytes, sitting.ends.last());
    assert_eq!(opened(&sitting.bytes).unwrap().expect("a header").commands, 481);
}

/// Every bit, in the header, in lengths, in checksums and in commands, of the first
/// append and of the last.
#[test]
fn no_flipped_bit_passes() {
    let mut bytes = sitting(&rolls()).bytes;
    for bit in 0..8 * bytes.len() {
        bytes[bit / 8] ^= 1 << (bit % 8);
        is_refused(&bytes, &format!("bit {bit}"));
        bytes[bit / 8] ^= 1 << (bit % 8);
    }
}

/// Of a journal that also has a torn tail: a flip in what was answered for is
/// refused, and one in the tail loses nothing.
#[test]
fn no_flipped_bit_before_a_torn_tail_passes() {
    let sitting = sitting(&rolls()[..20]);
    let (whole, _) = sitting.ends[19];
    let last = sitting.bytes.len() - whole;
    for left in [1, 4, 5, 12, 13, last - 8, last - 1] {
        let mut bytes = sitting.bytes[..whole + left].to_vec();
        for bit in 0..8 * bytes.len() {
            bytes[bit / 8] ^= 1 << (bit % 8);
            match opened(&bytes) {
                Ok(played) if bit >= 8 * whole => {
                    let played = played.expect("a header");
                    assert!(
                        (played.whole as usize, played.lounge) == sitting.ends[19],
                        "bit {bit}"
                    );
                }
                found => assert!(found.is_err(), "bit {bit} passes"),
            }
            bytes[bit / 8] ^= 1 << (bit % 8);
        }
    }
}

#[test]
fn every_length_is_cut_back() {
    let sitting = sitting(&rolls());
    for left in 0..=sitting.bytes.len() {
        comes_back(&sitting.bytes[..left], sitting.whole_within(left));
    }
}

#[test]
fn zeros_at_the_end_are_cut_back() {
    let sitting = sitting(&rolls()[..9]);
    for zeros in (1..=40).chain([4_095, 4_096, 4_097, 4_108, 4_109, 100_000]) {
        let mut bytes = [&sitting.bytes[..], &vec![0; zeros]].concat();
        comes_back(&bytes, sitting.ends.last());
        *bytes.last_mut().expect("zeros") = 1;
        // Up to four bytes may be a length.
        if zeros > 4 {
            is_refused(&bytes, &format!("{zeros} zeros and a 1"));
        }
    }
    // Before the header was written.
    for zeros in 0..=format::HEADER_BYTES {
        comes_back(&vec![0; zeros], None);
    }
    is_refused(&[0; format::HEADER_BYTES + 1], "a journal of zeros");
}

/// Random bytes, and bytes of this journal in places that are not theirs.
#[test]
fn garbage_is_refused() {
    let sitting = sitting(&rolls()[..9]);
    let with = |tail: &[u8]| [&sitting.bytes[..], tail].concat();
    for length in 1..=200 {
        for seed in 0..20 {
            let mut tail: Vec<u8> = noise(seed).take(length).collect();
            tail[0] |= 1;
            is_refused(&with(&tail), &format!("garbage {seed} of {length} bytes"));
            // A first byte that a length may have.
            tail[0] = 0;
            if length > 7 {
                is_refused(&with(&tail), &format!("garbage {seed} of {length} bytes"));
            }
        }
    }
    for pair in sitting.ends.windows(2) {
        let append = &sitting.bytes[pair[0].0..pair[1].0];
        is_refused(&with(append), "an append twice");
        is_refused(&with(&append[..append.len() - 1]), "a part of an append twice");
    }
    let [first, second, third] = [0, 1, 2].map(|place| sitting.ends[place].0);
    let rest = &sitting.bytes[second..];
    is_refused(&[&sitting.bytes[..first], rest].concat(), "an append left out");
    let (one, other) = (&sitting.bytes[first..second], &sitting.bytes[second..third]);
    is_refused(&[&sitting.bytes[..first], other, one].concat(), "two appends swapped");
    is_refused(&[&sitting.bytes[..], &format::header()].concat(), "another header");
}

/// A good checksum over bytes that are no commands: nobody here wrote it, or a later
/// program did that knows more of them.
#[test]
fn an_append_of_no_commands_is_refused() {
    let header = format::header();
    for commands in [&[1, 0, 1, 11][..], &[1, 0, 1, 4], &[0]] {
        let (append, _) = format::append(format::first_chain(), commands);
        is_refused(&[&header[..], &append].concat(), "an append of no commands");
        // Cut off before a byte that tells, it is torn; behind it, it is refused.
        let cut = [&header[..], &append[..append.len() - 1]].concat();
        is_refused(&cut, "a part of an append of no commands");
    }
}

#[test]
fn damage_is_refused_with_its_place() {
    let mut sitting = sitting(&rolls()[..3]);
    let (second, _) = sitting.ends[1];
    sitting.bytes[second + 13] ^= 1;
    let error = opened(&sitting.bytes).map(|_| ()).expect_err("damaged").to_string();
    assert_eq!(error, format!("byte {second}: damaged: an append differs from its checksum"));
    sitting.bytes[second + 1] ^= 1;
    let error = opened(&sitting.bytes).map(|_| ()).expect_err("damaged").to_string();
    let what = "the length of an append differs from its checksum";
    assert_eq!(error, format!("byte {second}: damaged: {what}"));
}

/// A disk of which a writing fails, after so many bytes of it, or its sync.
#[derive(Debug, Default)]
struct Disk {
    bytes: Vec<u8>,
    writes_left: usize,
    /// Bytes that the failing writing leaves.
    leaves: usize,
    fails_sync: bool,
    fails_cut: bool,
}

#[derive(Clone, Debug)]
struct SharedDisk(Arc<Mutex<Disk>>);

impl Store for SharedDisk {
    fn write(&mut self, bytes: &[u8]) -> io::Result<()> {
        let mut disk = self.0.lock().expect("one thread");
        if disk.writes_left == 0 && !disk.fails_sync {
            let left = disk.leaves.min(bytes.len());
            disk.bytes.extend(&bytes[..left]);
            return Err(io::Error::other("the disk is full"));
        }
        disk.bytes.extend(bytes);
        Ok(())
    }

    fn sync(&mut self) -> io::Result<()> {
        let mut disk = self.0.lock().expect("one thread");
        if disk.writes_left == 0 {
            return Err(io::Error::other("the disk is gone"));
        }
        disk.writes_left -= 1;
        Ok(())
    }

    fn cut_back(&mut self, length: u64) -> io::Result<()> {
        let mut disk = self.0.lock().expect("one thread");
        if disk.fails_cut {
            return Err(io::Error::other("the disk is gone"));
        }
        disk.bytes.truncate(length as usize);
        Ok(())
    }
}

/// Runs rolls until one is not kept. Answers what the disk holds and the house that
/// was answered for.
fn sit_until_it_fails(rolls: &[Vec<u8>], disk: Disk) -> (Vec<u8>, Lounge) {
    let shared = SharedDisk(Arc::new(Mutex::new(disk)));
    shared.0.lock().expect("one thread").bytes = format::header().to_vec();
    let played = opened(&format::header()).unwrap().expect("a header");
    let mut house = JournaledLounge::on(Box::new(shared.clone()), played);
    let mut answered = Lounge::fresh();
    for roll in rolls {
        let mut book = vec![0; roll.len() * ANSWER_BYTES];
        match house.roll(roll, &mut book) {
            Ok(report) => {
                assert_eq!((report.stop, report.read), (Stop::End, roll.len()));
                answered = house.lounge().clone();
            }
            Err(error) => {
                assert!(matches!(error, JournalError::NotKept(_)), "{error}");
                break;
            }
        }
    }
    // Nothing runs on the house that is ahead of its journal.
    let ahead = house.lounge().clone();
    let again = house.give(&Command::Open { day: 60_000 });
    assert!(matches!(again, Err(JournalError::OpenAgain)));
    assert!(*house.lounge() == ahead);
    let bytes = shared.0.lock().expect("one thread").bytes.clone();
    (bytes, answered)
}

/// Every number of bytes that a failed writing can leave, with and without the
/// cut behind it.
#[test]
fn a_failed_write_loses_nothing() {
    let rolls = &rolls()[..12];
    for writes_left in [0, 1, 7, 11] {
        let append = format::append(0, &rolls[writes_left]).0.len();
        for (leaves, fails_cut) in (0..=append).flat_map(|left| [(left, false), (left, true)]) {
            let disk = Disk { writes_left, leaves, fails_cut, ..Disk::default() };
            let (bytes, answered) = sit_until_it_fails(rolls, disk);
            let played = opened(&bytes).expect("no damage").expect("a header");
            // Only an append that is whole and could not be cut back counts.
            let counts = fails_cut && leaves == append;
            let expected = sitting(&rolls[..writes_left + usize::from(counts)]);
            assert!(played.lounge == expected.ends.last().expect("a house").1);
            assert!(counts || played.lounge == answered, "{leaves} bytes left");
        }
    }
}

#[test]
fn a_failed_sync_loses_nothing() {
    let rolls = &rolls()[..12];
    for (writes_left, fails_cut) in [(0, false), (0, true), (5, false), (5, true)] {
        let disk = Disk { writes_left, fails_sync: true, fails_cut, ..Disk::default() };
        let (bytes, answered) = sit_until_it_fails(rolls, disk);
        let played = opened(&bytes).expect("no damage").expect("a header");
        let expected = sitting(&rolls[..writes_left + usize::from(fails_cut)]);
        assert!(played.lounge == expected.ends.last().expect("a house").1);
        assert!(fails_cut || played.lounge == answered);
    }
}

#[test]
fn a_roll_that_is_too_long_is_not_run() {
    let played = opened(&format::header()).unwrap().expect("a header");
    let disk = SharedDisk(Arc::new(Mutex::new(Disk { writes_left: 9, ..Disk::default() })));
    let mut house = JournaledLounge::on(Box::new(disk), played);
    let roll = vec![6; LONGEST_ROLL + 1];
    let mut book = [0; ANSWER_BYTES];
    assert!(matches!(house.roll(&roll, &mut book), Err(JournalError::RollTooLong)));
    assert!(*house.lounge() == Lounge::fresh());
    // Nothing was spoilt by it, and no byte is no append.
    assert_eq!(house.roll(&[], &mut book).expect("nothing to keep").answers, 0);
    assert!(house.roll(&[1, 0, 1], &mut book).is_ok());
}
