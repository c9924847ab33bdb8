//! Files and standard input, and what is said of bad ones.

use std::io::{self, Read};
use wulipday::{words, Command};

/// The bytes of a roll in words.
pub fn read_words(file: &str) -> Result<Vec<u8>, String> {
    let text = String::from_utf8(read(file)?).map_err(|error| {
        let at = error.utf8_error().valid_up_to();
        format!("{}: byte {at}: expected text in UTF-8", shown(file))
    })?;
    words::encode(&text).map_err(|bad| format!("{}: {bad}", shown(file)))
}

/// A roll's bytes, which must be whole commands.
pub fn read_bytes(file: &str) -> Result<Vec<u8>, String> {
    let roll = read(file)?;
    check_commands(&roll).map_err(|bad| format!("{}: {bad}", shown(file)))?;
    Ok(roll)
}

fn check_commands(roll: &[u8]) -> Result<(), String> {
    let mut at = 0;
    while at < roll.len() {
        let Some(length) = Command::length(roll[at]) else {
            return Err(format!("byte {at}: expected a command, 01 to 0A, not {:02X}", roll[at]));
        };
        let left = roll.len() - at;
        if left < length {
            let byte = roll[at];
            return Err(format!(
                "byte {at}: expected {length} bytes of command {byte:02X}, not {left}"
            ));
        }
        at += length;
    }
    Ok(())
}

fn read(file: &str) -> Result<Vec<u8>, String> {
    let mut bytes = Vec::new();
    let read = match file {
        "-" => io::stdin().read_to_end(&mut bytes).map(|_| bytes),
        _ => std::fs::read(file),
    };
    read.map_err(|error| format!("{}: {error}", shown(file)))
}

fn shown(file: &str) -> &str {
    match file {
        "-" => "standard input",
        _ => file,
    }
}
