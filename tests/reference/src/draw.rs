//! The settled draw, as Lucky Last asks for it: which numbers are in, and which
//! of them came last.

use crate::ways::NUMBERS;

/// The twenty balls of a settled game.
pub struct Draw {
    /// By number; nothing is numbered 0.
    drawn: [bool; NUMBERS + 1],
    last: u8,
}

impl Draw {
    /// From the balls in the order they came.
    pub fn of(balls: &[u8]) -> Draw {
        let mut drawn = [false; NUMBERS + 1];
        for &ball in balls {
            drawn[usize::from(ball)] = true;
        }
        Draw { drawn, last: *balls.last().expect("a game has balls") }
    }

    /// How many of the numbers are in.
    pub fn matched(&self, numbers: &[u8]) -> usize {
        numbers.iter().filter(|&&number| self.drawn[usize::from(number)]).count()
    }

    pub fn last_is_among(&self, numbers: &[u8]) -> bool {
        numbers.contains(&self.last)
    }
}
