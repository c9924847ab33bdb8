//! Wulipday for people: rolls in words, what a roll does, and what a journal
//! tells.

mod input;
mod progress;
mod replay;
mod run;
mod tables;

use std::io::{self, Write};
use std::process::ExitCode;

const USAGE: &str = "\
usage: wulipday encode [FILE]
           turns a roll in words into its bytes, on standard output
       wulipday run [--words | --bytes] [FILE]
           runs a roll on a fresh house: each command with its answer and what
           it means, then the till and the pools. A FILE that ends in .txt is in
           words and any other is bytes, unless the option says which
       wulipday replay JOURNAL
           what a journal tells: till, pools and live tickets

Without a FILE, or with -, standard input is read.
";

/// The print, or why there is none.
type Print = Result<Vec<u8>, String>;

fn main() -> ExitCode {
    let arguments: Vec<String> = std::env::args().skip(1).collect();
    let arguments: Vec<&str> = arguments.iter().map(String::as_str).collect();
    let Some(print) = print_of(&arguments) else {
        eprint!("{USAGE}");
        return ExitCode::from(2);
    };
    let written = print.and_then(|print| {
        io::stdout().write_all(&print).map_err(|error| format!("standard output: {error}"))
    });
    match written {
        Ok(()) => ExitCode::SUCCESS,
        Err(message) => {
            eprintln!("wulipday: {message}");
            ExitCode::FAILURE
        }
    }
}

/// Nothing where the arguments are none of the usage's.
fn print_of(arguments: &[&str]) -> Option<Print> {
    match *arguments {
        ["help" | "--help" | "-h"] => Some(Ok(USAGE.into())),
        ["encode"] => Some(encode("-")),
        ["encode", file] if is_file(file) => Some(encode(file)),
        ["run"] => Some(run::run("-", false)),
        ["run", "--words"] => Some(run::run("-", true)),
        ["run", "--bytes"] => Some(run::run("-", false)),
        ["run", "--words", file] if is_file(file) => Some(run::run(file, true)),
        ["run", "--bytes", file] if is_file(file) => Some(run::run(file, false)),
        ["run", file] if is_file(file) => Some(run::run(file, file.ends_with(".txt"))),
        ["replay", file] if is_file(file) => Some(replay::replay(file)),
        _ => None,
    }
}

fn is_file(argument: &str) -> bool {
    argument == "-" || !argument.starts_with('-')
}

fn encode(file: &str) -> Print {
    input::read_words(file)
}
