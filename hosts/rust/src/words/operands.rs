//! The words of a line, taken from the front.

use std::fmt::Display;
use std::str::FromStr;

/// Whole numbers that an operand can be.
pub trait Operand: FromStr + Display + PartialOrd {
    const LEAST: Self;
    const MOST: Self;
}

macro_rules! operands {
    ($($operand:ty),*) => {
        $(impl Operand for $operand {
            const LEAST: $operand = <$operand>::MIN;
            const MOST: $operand = <$operand>::MAX;
        })*
    };
}

operands!(u8, u16, u32);

pub struct Words<'a> {
    words: std::iter::Peekable<std::str::SplitWhitespace<'a>>,
}

impl<'a> Words<'a> {
    pub fn of(line: &'a str) -> Words<'a> {
        Words { words: line.split_whitespace().peekable() }
    }

    pub fn next(&mut self) -> Option<&'a str> {
        self.words.next()
    }

    pub fn peek(&mut self) -> Option<&'a str> {
        self.words.peek().copied()
    }

    pub fn is_empty(&mut self) -> bool {
        self.peek().is_none()
    }

    /// The next word, which must be this one.
    pub fn expect(&mut self, word: &str) -> Result<(), String> {
        match self.next() {
            Some(found) if found == word => Ok(()),
            Some(found) => Err(format!("\"{word}\" should stand where \"{found}\" does")),
            None => Err(format!("\"{word}\" is missing")),
        }
    }

    /// The words before this one, which is taken too.
    pub fn up_to(&mut self, word: &str) -> Result<String, String> {
        let mut before = Vec::new();
        loop {
            match self.next() {
                Some(found) if found == word => return Ok(before.join(" ")),
                Some(found) => before.push(found),
                None => return Err(format!("\"{word}\" is missing")),
            }
        }
    }

    /// The next word as an operand, as wide as its type.
    pub fn number<T: Operand>(&mut self, what: &str) -> Result<T, String> {
        let word = self.next().ok_or_else(|| format!("a number is missing: {what}"))?;
        number_within(word, what, T::LEAST, T::MOST)
    }

    /// Nothing may follow.
    pub fn end(&mut self) -> Result<(), String> {
        match self.next() {
            Some(more) => Err(format!("\"{more}\" is one word too many")),
            None => Ok(()),
        }
    }
}

/// A number from `least` to `most`, in decimal digits alone.
pub fn number_within<T: Operand>(word: &str, what: &str, least: T, most: T) -> Result<T, String> {
    let digits = word.bytes().all(|byte| byte.is_ascii_digit());
    match word.parse() {
        Ok(number) if digits && least <= number && number <= most => Ok(number),
        _ => Err(format!("{what} must be a number from {least} to {most}, not \"{word}\"")),
    }
}
