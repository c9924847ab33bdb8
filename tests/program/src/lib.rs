//! Runs the ledger program that `rt run` builds in crates/ledger. The variable
//! WULIPDAY_LEDGER names another place for it.

use std::env;
use std::io::{ErrorKind, Write};
use std::path::{Path, PathBuf};
use std::process::{ChildStdin, Command, Stdio};
use std::thread;

/// What the program prints for this input.
pub fn run_ledger(input: &[u8]) -> String {
    run_ledger_in_pieces(input, usize::MAX)
}

/// The same, with the input written in pieces of so many bytes. The program must
/// end well and say nothing on standard error.
pub fn run_ledger_in_pieces(input: &[u8], piece: usize) -> String {
    let program = ledger_program();
    let mut process = Command::new(&program)
        .stdin(Stdio::piped())
        .stdout(Stdio::piped())
        .stderr(Stdio::piped())
        .spawn()
        .unwrap_or_else(|error| {
            panic!("{}: {error}: run `rt run` in crates/ledger", program.display())
        });
    let stdin = process.stdin.take().expect("its input is ours");
    // Pipes hold little: whoever writes all the input before reading any output
    // may wait for a program that waits for him.
    let output = thread::scope(|scope| {
        scope.spawn(|| feed(stdin, input, piece));
        process.wait_with_output().expect("the program ends")
    });
    assert!(output.status.success(), "{}", output.status);
    assert_eq!(String::from_utf8_lossy(&output.stderr), "");
    String::from_utf8(output.stdout).expect("it prints digits and words")
}

/// Where the program is.
pub fn ledger_program() -> PathBuf {
    let default = Path::new(env!("CARGO_MANIFEST_DIR")).join("../../crates/ledger/out/ledger");
    env::var_os("WULIPDAY_LEDGER").map_or(default, PathBuf::from)
}

/// The program need not take more than it reads, and may have ended by then.
fn feed(mut stdin: ChildStdin, input: &[u8], piece: usize) {
    for part in input.chunks(piece) {
        match stdin.write_all(part) {
            Err(error) if error.kind() == ErrorKind::BrokenPipe => return,
            written => written.expect("the program takes its input"),
        }
    }
}
