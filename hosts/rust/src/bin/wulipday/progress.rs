//! A bar on standard error, where that is a terminal and the work takes long.

use std::io::{self, IsTerminal, Write};
use std::time::{Duration, Instant};

/// Work that is done by then has no bar.
const PATIENCE: Duration = Duration::from_secs(1);
const BETWEEN_BARS: Duration = Duration::from_millis(100);
const WIDTH: u64 = 40;

pub struct Progress {
    /// Where the bar is shown; nowhere, if that is no terminal.
    terminal: Option<Box<dyn Write>>,
    next: Instant,
    is_shown: bool,
}

impl Progress {
    pub fn on_standard_error() -> Progress {
        let is_terminal = io::stderr().is_terminal();
        Progress::on(is_terminal.then(|| Box::new(io::stderr()) as Box<dyn Write>))
    }

    fn on(terminal: Option<Box<dyn Write>>) -> Progress {
        Progress { terminal, next: Instant::now() + PATIENCE, is_shown: false }
    }

    pub fn show(&mut self, done: u64, of: u64) {
        let Some(terminal) = &mut self.terminal else { return };
        if Instant::now() >= self.next {
            // Nobody needs the bar so much that a failure matters.
            write!(terminal, "\r{}", bar(done, of)).ok();
            self.next = Instant::now() + BETWEEN_BARS;
            self.is_shown = true;
        }
    }

    /// Leaves an empty line behind.
    pub fn clear(&mut self) {
        if let (Some(terminal), true) = (&mut self.terminal, self.is_shown) {
            write!(terminal, "\r{:width$}\r", "", width = bar(1, 1).len()).ok();
        }
    }
}

fn bar(done: u64, of: u64) -> String {
    let of = of.max(1);
    let full = "#".repeat((done * WIDTH / of) as usize);
    format!("[{full:<width$}] {:>3}%", done * 100 / of, width = WIDTH as usize)
}

#[cfg(test)]
mod tests {
    use super::*;

    #[test]
    fn bars() {
        let blank = " ".repeat(40);
        assert_eq!(bar(0, 7), format!("[{blank}]   0%"));
        assert_eq!(bar(1, 2), format!("[{}{}]  50%", "#".repeat(20), " ".repeat(20)));
        assert_eq!(bar(9, 9), format!("[{}] 100%", "#".repeat(40)));
    }

    #[test]
    fn only_on_a_terminal_and_after_a_second() {
        let is_shown = |terminal, next| {
            let mut progress = Progress { next, ..Progress::on(terminal) };
            progress.show(1, 2);
            progress.is_shown
        };
        let now = Instant::now();
        let terminal = || Some(Box::new(io::sink()) as Box<dyn Write>);
        assert!(is_shown(terminal(), now));
        assert!(!is_shown(terminal(), now + PATIENCE));
        assert!(!is_shown(None, now));
    }
}
