//! What is measured.

use reference::Command;

/// A sample of short commands has at least so many, so that the clock's own time
/// counts little.
const COMMANDS_A_SAMPLE: usize = 16;

pub struct Case {
    pub name: String,
    /// Brings a fresh house to where the measured roll begins.
    pub before: Vec<u8>,
    pub measured: Vec<u8>,
    /// Commands on the measured roll.
    pub commands: usize,
    /// The code that each of them is answered with, if it is the same.
    pub code: Option<u8>,
    /// What the time is divided by: the commands, or 1 for the whole roll.
    pub shares: usize,
    /// A sample runs the roll on so many houses, one after another. Many would not
    /// fit the nearer caches.
    pub houses: usize,
}

impl Case {
    /// A roll of like commands, each written by the function; the figure is the
    /// time of one.
    pub fn repeated(
        name: &str,
        before: Vec<u8>,
        code: u8,
        commands: usize,
        command: impl Fn(usize) -> Command,
    ) -> Case {
        let measured = (0..commands).flat_map(|index| command(index).encode()).collect();
        let houses = COMMANDS_A_SAMPLE.div_ceil(commands);
        let name = name.to_string();
        Case { name, before, measured, commands, code: Some(code), shares: commands, houses }
    }
}

/// Groups of one number each.
pub fn singles(numbers: &[u8]) -> Vec<&[u8]> {
    numbers.chunks(1).collect()
}

/// Balls 1 to 20.
pub fn twenty() -> Vec<u8> {
    (1..=20).collect()
}
