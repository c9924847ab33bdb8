//! The bytes of a journal.
//!
//! | Part | Bytes |
//! |---|---|
//! | header | `wulipday journal`, format (4), rules (4), checksum of these (8) |
//! | each append | length (4), its checksum (8), the commands, their checksum (8) |
//!
//! Numbers stand high byte first. Both checksums of an append take in the last one
//! before it and the length, so that an append is good only in its own place. The
//! length has one of its own: otherwise a flipped length at the end would pass for
//! an append that was cut off.

use super::checksum::checksum;
use super::{JournalError, JOURNAL_FORMAT, LONGEST_ROLL, RULES};
use crate::Command;
use std::io::{self, Read};

const NAME: &[u8; 16] = b"wulipday journal";
pub const HEADER_BYTES: usize = NAME.len() + 4 + 4 + CHECKSUM_BYTES;
const CHECKSUM_BYTES: usize = 8;
/// A length and its checksum.
const FRONT_BYTES: usize = 4 + CHECKSUM_BYTES;

/// The last checksum so far, which the next ones take in.
pub type Chain = u64;

/// What a journal begins with.
pub fn header() -> [u8; HEADER_BYTES] {
    header_of(JOURNAL_FORMAT, RULES)
}

fn header_of(format: u32, rules: u32) -> [u8; HEADER_BYTES] {
    let mut bytes = [0; HEADER_BYTES];
    bytes[..16].copy_from_slice(NAME);
    bytes[16..20].copy_from_slice(&format.to_be_bytes());
    bytes[20..24].copy_from_slice(&rules.to_be_bytes());
    let check = checksum(&[&bytes[..24]]);
    bytes[24..].copy_from_slice(&check.to_be_bytes());
    bytes
}

/// The chain behind the header.
pub fn first_chain() -> Chain {
    checksum(&[&header()[..24]])
}

/// The bytes of an append, and the chain behind it.
pub fn append(chain: Chain, commands: &[u8]) -> (Vec<u8>, Chain) {
    let length = u32::try_from(commands.len()).expect("no longer than the longest roll");
    let length = length.to_be_bytes();
    let after = commands_check(chain, length, commands);
    let front = front_check(chain, length).to_be_bytes();
    ([&length[..], &front, commands, &after.to_be_bytes()].concat(), after)
}

fn front_check(chain: Chain, length: [u8; 4]) -> u64 {
    checksum(&[&chain.to_be_bytes(), &length])
}

fn commands_check(chain: Chain, length: [u8; 4], commands: &[u8]) -> u64 {
    checksum(&[&chain.to_be_bytes(), &length, commands])
}

/// Reads a journal append by append, up to its end or to a torn one.
pub struct Reader<R> {
    source: R,
    chain: Chain,
    /// Bytes of the header and of the appends so far.
    whole: u64,
    /// What was read last.
    part: Vec<u8>,
}

impl<R: Read> Reader<R> {
    /// Reads the header. There is none where a journal was only being made.
    pub fn begin(mut source: R) -> Result<Option<Reader<R>>, JournalError> {
        let mut part = Vec::new();
        read_up_to(&mut source, HEADER_BYTES, &mut part)?;
        let is_prefix = part.len() < HEADER_BYTES && header().starts_with(&part);
        // Zeros that end where the header would: more of them are no header's.
        let is_blank = is_zeros(&part) && source.read(&mut [0])? == 0;
        if is_prefix || is_blank {
            return Ok(None);
        }
        check_header(&part)?;
        let whole = HEADER_BYTES as u64;
        Ok(Some(Reader { source, chain: first_chain(), whole, part }))
    }

    /// Bytes of the header and of the appends so far.
    pub fn whole(&self) -> u64 {
        self.whole
    }

    pub fn chain(&self) -> Chain {
        self.chain
    }

    /// The commands of the next append. There is none at the end, and none where
    /// the last append was interrupted; all else is damage.
    pub fn next_append(&mut self) -> Result<Option<&[u8]>, JournalError> {
        read_up_to(&mut self.source, FRONT_BYTES, &mut self.part)?;
        if is_zeros(&self.part) {
            return self.zeros_to_the_end();
        }
        let Some(length) = self.length()? else { return Ok(None) };
        read_up_to(&mut self.source, length + CHECKSUM_BYTES, &mut self.part)?;
        let (commands, check) = self.part.split_at(length.min(self.part.len()));
        let length_bytes = (length as u32).to_be_bytes();
        let expected = commands_check(self.chain, length_bytes, commands);
        if !expected.to_be_bytes().starts_with(check) {
            return Err(self.damaged("an append differs from its checksum"));
        }
        if self.part.len() < length + CHECKSUM_BYTES {
            return match may_begin(commands, length) {
                true => Ok(None),
                false => Err(self.damaged("a last append that is cut off, and of no commands")),
            };
        }
        self.chain = expected;
        self.whole += (FRONT_BYTES + self.part.len()) as u64;
        self.part.truncate(length);
        Ok(Some(&self.part))
    }

    /// The length of the append whose front was read; none where the front was
    /// interrupted.
    fn length(&self) -> Result<Option<usize>, JournalError> {
        let (length, check) = self.part.split_at(self.part.len().min(4));
        let Ok(length) = <[u8; 4]>::try_from(length) else {
            // A length begins with 0.
            return match length[0] {
                0 => Ok(None),
                _ => Err(self.damaged("no append begins like this")),
            };
        };
        if !front_check(self.chain, length).to_be_bytes().starts_with(check) {
            return Err(self.damaged("the length of an append differs from its checksum"));
        }
        let length = u32::from_be_bytes(length) as usize;
        if !(1..=LONGEST_ROLL).contains(&length) {
            return Err(self.damaged("no append has this length"));
        }
        Ok((self.part.len() == FRONT_BYTES).then_some(length))
    }

    /// A file that had grown, but whose bytes had not been written yet.
    fn zeros_to_the_end(&mut self) -> Result<Option<&[u8]>, JournalError> {
        while !self.part.is_empty() {
            if !is_zeros(&self.part) {
                return Err(self.damaged("zeros with something behind them"));
            }
            read_up_to(&mut self.source, 4_096, &mut self.part)?;
        }
        Ok(None)
    }

    fn damaged(&self, what: &'static str) -> JournalError {
        JournalError::Damaged { at: self.whole, what }
    }
}

fn check_header(bytes: &[u8]) -> Result<(), JournalError> {
    let name = &bytes[..bytes.len().min(NAME.len())];
    if name != NAME {
        return Err(JournalError::NotAJournal);
    }
    let number = |at: usize| bytes.get(at..at + 4).map(|four| four.try_into().expect("4 bytes"));
    let (format, rules) = (number(16).map(u32::from_be_bytes), number(20).map(u32::from_be_bytes));
    let (format, rules) = (format.unwrap_or_default(), rules.unwrap_or_default());
    if bytes != header_of(format, rules) {
        return Err(JournalError::Damaged { at: 0, what: "the header differs from its checksum" });
    }
    match (format, rules) {
        (JOURNAL_FORMAT, RULES) => Ok(()),
        (JOURNAL_FORMAT, found) => Err(JournalError::OtherRules { found }),
        (found, _) => Err(JournalError::OtherFormat { found }),
    }
}

/// So many bytes, or fewer where the journal ends.
fn read_up_to(source: impl Read, bytes: usize, part: &mut Vec<u8>) -> io::Result<()> {
    part.clear();
    source.take(bytes as u64).read_to_end(part)?;
    Ok(())
}

fn is_zeros(bytes: &[u8]) -> bool {
    bytes.iter().all(|&byte| byte == 0)
}

/// Whether bytes can be the first ones of commands that take so many bytes.
fn may_begin(bytes: &[u8], length: usize) -> bool {
    let mut at = 0;
    while at < bytes.len() {
        match Command::length(bytes[at]) {
            Some(size) if at + size <= length => at += size,
            _ => return false,
        }
    }
    true
}

#[cfg(test)]
mod tests {
    use super::*;

    fn refused(bytes: &[u8]) -> String {
        Reader::begin(bytes).map(|_| ()).expect_err("refused").to_string()
    }

    #[test]
    fn other_versions_are_refused_by_name() {
        let earlier = header_of(JOURNAL_FORMAT, RULES - 1);
        assert_eq!(refused(&earlier), "a journal of rules 2: expected rules 3");
        let later = header_of(JOURNAL_FORMAT, RULES + 1);
        assert_eq!(refused(&later), "a journal of rules 4: expected rules 3");
        let other = header_of(JOURNAL_FORMAT + 1, RULES + 1);
        assert_eq!(refused(&other), "a journal of format 2: expected format 1");
        assert_eq!(refused(&[1, 0, 1]), "byte 0: no journal: expected \"wulipday journal\"");
        let mut flipped = header();
        flipped[23] ^= 4;
        assert_eq!(refused(&flipped), "byte 0: damaged: the header differs from its checksum");
        assert_eq!(refused(&[0; HEADER_BYTES + 1]), refused(&[1]));
    }

    #[test]
    fn commands_that_are_cut_off() {
        assert!(may_begin(&[], 5) && may_begin(&[1, 0, 1, 4], 5) && may_begin(&[1, 0], 3));
        assert!(!may_begin(&[0], 5) && !may_begin(&[1, 0, 1, 4], 4) && !may_begin(&[2], 88));
    }
}
