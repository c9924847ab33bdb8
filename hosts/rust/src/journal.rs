//! A house that outlives a crash. The journal of the commands it has read is the
//! durable record: the same commands on a fresh house lead to the same house.

mod checksum;
mod error;
mod format;
#[cfg(test)]
mod tests;

pub use error::JournalError;

use crate::{Answer, Command, Lounge, Record, Refusal, Report, Stop, ANSWER_BYTES};
use format::{Chain, Reader};
use std::fmt::Debug;
use std::fs::{File, OpenOptions, TryLockError};
use std::io::{self, BufReader, Read, Write};
use std::path::Path;

/// The format of journals that this crate writes.
pub const JOURNAL_FORMAT: u32 = 1;

/// The version of the rules. Whatever changes the answer to some bytes raises it,
/// and a journal of other rules is refused. A new command does not: no journal had
/// its byte, so that all are answered as before.
pub const RULES: u32 = 3;

/// Bytes of the longest roll that a [`JournaledLounge`] takes at once.
pub const LONGEST_ROLL: usize = 0xFF_FFFF;

/// A lounge and the journal of every command it has read, refused ones included.
///
/// A roll is run, its commands are appended and synced, and only then is it
/// answered. Opening a journal tells what an interrupted append leaves, which
/// nobody was answered for and which is cut back, from damage, which is refused.
/// While it is open, the journal is locked against other processes.
///
/// ```
/// use wulipday::{Answer, Command, JournaledLounge};
///
/// let path = std::env::temp_dir().join(format!("wulipday-{}.journal", std::process::id()));
/// # std::fs::remove_file(&path).ok();
/// let mut lounge = JournaledLounge::open(&path)?;
/// assert_eq!(lounge.give(&Command::Open { day: 1 })?, Ok(Answer::Opened { day: 1 }));
/// drop(lounge);
///
/// // The next day, or after a crash.
/// let mut lounge = JournaledLounge::open(&path)?;
/// assert_eq!(lounge.give(&Command::Open { day: 2 })?, Ok(Answer::Opened { day: 2 }));
/// # std::fs::remove_file(&path)?;
/// # Ok::<(), wulipday::JournalError>(())
/// ```
#[derive(Debug)]
pub struct JournaledLounge {
    lounge: Lounge,
    store: Box<dyn Store>,
    chain: Chain,
    /// Bytes that are kept.
    length: u64,
    /// A roll was not kept, and the house is ahead of its journal.
    failed: bool,
}

/// Where a journal is kept.
trait Store: Debug + Send {
    fn write(&mut self, bytes: &[u8]) -> io::Result<()>;

    /// What was written outlives a crash once this has returned.
    fn sync(&mut self) -> io::Result<()>;

    fn cut_back(&mut self, length: u64) -> io::Result<()>;
}

impl Store for File {
    fn write(&mut self, bytes: &[u8]) -> io::Result<()> {
        self.write_all(bytes)
    }

    fn sync(&mut self) -> io::Result<()> {
        self.sync_data()
    }

    fn cut_back(&mut self, length: u64) -> io::Result<()> {
        self.set_len(length)?;
        self.sync_all()
    }
}

impl JournaledLounge {
    /// Begins a journal, or replays one into a fresh house.
    pub fn open(path: &Path) -> Result<JournaledLounge, JournalError> {
        let mut file = OpenOptions::new().create(true).read(true).append(true).open(path)?;
        file.try_lock().map_err(lock_error)?;
        let played = match play(BufReader::new(&file), |_| ())? {
            Some(played) => played,
            None => begin(&mut file, path)?,
        };
        if file.metadata()?.len() > played.whole {
            // Nobody was answered for an append that was interrupted.
            file.cut_back(played.whole)?;
        }
        Ok(JournaledLounge::on(Box::new(file), played))
    }

    fn on(store: Box<dyn Store>, played: Played) -> JournaledLounge {
        let Played { lounge, chain, whole, .. } = played;
        JournaledLounge { lounge, store, chain, length: whole, failed: false }
    }

    /// Runs a roll, as [`Lounge::roll`] does. Its answers may be handed out once
    /// this has returned `Ok`.
    ///
    /// After [`JournalError::NotKept`] the house is ahead of its journal. Nothing of
    /// the roll may be answered, and the journal has to be opened again.
    pub fn roll(&mut self, roll: &[u8], book: &mut [u8]) -> Result<Report, JournalError> {
        if self.failed {
            return Err(JournalError::OpenAgain);
        }
        if roll.len() > LONGEST_ROLL {
            return Err(JournalError::RollTooLong);
        }
        let report = self.lounge.roll(roll, book);
        self.keep(&roll[..report.read])?;
        Ok(report)
    }

    /// Runs one command, which is a roll of its own.
    pub fn give(&mut self, command: &Command) -> Result<Result<Answer, Refusal>, JournalError> {
        let mut record = [0; ANSWER_BYTES];
        self.roll(&command.encode(), &mut record)?;
        Ok(Record::read(&record).outcome().expect("the core answers in its own codes"))
    }

    fn keep(&mut self, commands: &[u8]) -> Result<(), JournalError> {
        if commands.is_empty() {
            return Ok(());
        }
        let (bytes, chain) = format::append(self.chain, commands);
        if let Err(error) = self.store.write(&bytes).and_then(|()| self.store.sync()) {
            self.failed = true;
            // So that nothing of it comes back. Where this fails too, opening cuts a
            // torn append, and a whole one counts though its answers were lost.
            self.store.cut_back(self.length).ok();
            return Err(JournalError::NotKept(error));
        }
        self.chain = chain;
        self.length += bytes.len() as u64;
        Ok(())
    }

    /// The house. After a failed roll it is ahead of its journal.
    pub fn lounge(&self) -> &Lounge {
        &self.lounge
    }
}

/// What a journal tells.
#[derive(Clone, Debug)]
pub struct Replayed {
    /// The house.
    pub lounge: Lounge,
    /// How many commands made it, refused ones included.
    pub commands: u64,
    /// Bytes of the header and of all whole appends.
    pub whole: u64,
    /// Bytes of an interrupted append behind them. Nobody was answered for it.
    pub torn: u64,
}

/// Replays a journal and leaves it as it is. The function is told how many bytes
/// were replayed so far, and of how many.
pub fn replay(path: &Path, mut progress: impl FnMut(u64, u64)) -> Result<Replayed, JournalError> {
    let file = File::open(path)?;
    file.try_lock_shared().map_err(lock_error)?;
    let length = file.metadata()?.len();
    let played = play(BufReader::new(&file), |whole| progress(whole, length))?;
    let Played { lounge, commands, whole, .. } = played.unwrap_or_else(Played::nothing);
    Ok(Replayed { lounge, commands, whole, torn: length - whole })
}

/// A house from a journal, and how far the journal is whole.
struct Played {
    lounge: Lounge,
    commands: u64,
    chain: Chain,
    whole: u64,
}

impl Played {
    fn nothing() -> Played {
        Played { lounge: Lounge::fresh(), commands: 0, chain: format::first_chain(), whole: 0 }
    }
}

/// Replays what is whole; nothing where there is no header yet.
fn play(source: impl Read, mut progress: impl FnMut(u64)) -> Result<Option<Played>, JournalError> {
    let Some(mut reader) = Reader::begin(source)? else { return Ok(None) };
    let mut played = Played { whole: reader.whole(), ..Played::nothing() };
    while let Some(commands) = reader.next_append()? {
        played.commands += run(&mut played.lounge, commands)
            .ok_or(JournalError::Damaged { at: played.whole, what: "an append of no commands" })?;
        played.whole = reader.whole();
        progress(played.whole);
    }
    played.chain = reader.chain();
    Ok(Some(played))
}

/// Runs whole commands, and answers how many they are.
fn run(lounge: &mut Lounge, commands: &[u8]) -> Option<u64> {
    let mut book = [0; 64 * ANSWER_BYTES];
    let (mut read, mut answers) = (0, 0);
    loop {
        let report = lounge.roll(&commands[read..], &mut book);
        read += report.read;
        answers += report.answers as u64;
        match report.stop {
            // The book can be written over.
            Stop::BookFull => {}
            Stop::End => return Some(answers),
            Stop::UnknownByte | Stop::TooFewBytes => return None,
        }
    }
}

/// Writes the header of a new journal.
fn begin(file: &mut File, path: &Path) -> Result<Played, JournalError> {
    file.cut_back(0)?;
    file.write_all(&format::header())?;
    file.sync_all()?;
    sync_folder_of(path)?;
    Ok(Played { whole: format::HEADER_BYTES as u64, ..Played::nothing() })
}

/// A new file may be gone after a crash unless its folder is written too.
fn sync_folder_of(path: &Path) -> io::Result<()> {
    let full_path = path.canonicalize()?;
    let folder = full_path.parent().expect("a file stands in a folder");
    File::open(folder)?.sync_all()
}

fn lock_error(error: TryLockError) -> JournalError {
    match error {
        TryLockError::WouldBlock => JournalError::Locked,
        TryLockError::Error(error) => JournalError::Io(error),
    }
}
