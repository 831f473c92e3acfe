//! Reads a schema text from standard input and writes the report on it, or, as
//! `reference replay`, reads a script of calls and writes what they answer.
//!
//! This program shares no code with the proved ones and finds what is empty and
//! what follows in another way (see `emptiness`); they are run on the same input
//! and must write the same bytes.

mod emptiness;
mod pile;
mod question;
mod refusal;
mod report;
mod schema;
mod script;
mod set;
mod text;

use std::io::{self, Read, Write};
use std::process::ExitCode;

fn main() -> io::Result<ExitCode> {
    let arguments: Vec<_> = std::env::args_os().skip(1).collect();
    match &arguments[..] {
        [] => write_report(),
        [word] if word == "replay" => write_replay(),
        _ => {
            eprintln!("reference [replay] < INPUT");
            Ok(ExitCode::from(2))
        }
    }
}

fn write_report() -> io::Result<ExitCode> {
    // One byte beyond the longest text is enough to see that it is too long.
    let text = read_at_most(text::LONGEST_TEXT + 1)?;
    write_all(report::report(&text).as_bytes())?;
    Ok(ExitCode::SUCCESS)
}

fn write_replay() -> io::Result<ExitCode> {
    let script = read_at_most(script::LONGEST_SCRIPT + 1)?;
    match script::replay(&script) {
        Ok(answers) => {
            write_all(&answers)?;
            Ok(ExitCode::SUCCESS)
        }
        Err(bad) => {
            eprintln!("line {}: {}", bad.line, bad.words);
            Ok(ExitCode::FAILURE)
        }
    }
}

fn read_at_most(length: usize) -> io::Result<Vec<u8>> {
    let mut bytes = Vec::new();
    io::stdin()
        .lock()
        .take(length as u64)
        .read_to_end(&mut bytes)?;
    Ok(bytes)
}

fn write_all(bytes: &[u8]) -> io::Result<()> {
    let mut output = io::stdout().lock();
    output.write_all(bytes)?;
    output.flush()
}
