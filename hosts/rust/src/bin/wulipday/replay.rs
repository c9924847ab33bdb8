//! `wulipday replay`: what a journal tells.

use crate::progress::Progress;
use crate::{tables, Print};
use std::fmt::Write;
use std::path::Path;
use wulipday::Replayed;

/// Tickets on a line.
const ON_A_LINE: usize = 10;

pub fn replay(file: &str) -> Print {
    let mut progress = Progress::on_standard_error();
    let replayed = wulipday::replay(Path::new(file), |done, of| progress.show(done, of));
    progress.clear();
    let replayed = replayed.map_err(|error| format!("{file}: {error}"))?;
    Ok(print(&replayed).into_bytes())
}

fn print(replayed: &Replayed) -> String {
    let Replayed { lounge, commands, whole, torn } = replayed;
    let mut print = format!("{commands} commands in {whole} bytes\n");
    if *torn > 0 {
        let note = "more of an append that was interrupted, which nobody was answered for";
        writeln!(print, "{torn} bytes {note}").expect("a string takes it");
    }
    let tickets = live_tickets(&lounge.live_tickets());
    let tables = [tables::till(&lounge.till()), tables::pools(&lounge.pools()), tickets];
    for table in tables {
        print.push('\n');
        print.push_str(&table);
    }
    print
}

fn live_tickets(tickets: &[u32]) -> String {
    let mut table = format!("{} live tickets\n", tickets.len());
    for line in tickets.chunks(ON_A_LINE) {
        let numbers: Vec<String> = line.iter().map(u32::to_string).collect();
        writeln!(table, "  {}", numbers.join(" ")).expect("a string takes it");
    }
    table
}
