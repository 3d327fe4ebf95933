//! Recomputes the statements of a market day from its day file.
//!
//! Reads a day file on standard input and prints its statements and total line, or
//! `X place number` for a refused file.

mod clearing;
mod day;
mod file;
mod money;
mod print;
mod share;

use std::io::{self, Read, Write};
use std::process::ExitCode;

fn main() -> ExitCode {
    let mut bytes = Vec::new();
    // One byte above the greatest size is enough to know that a file is too long.
    let most = file::MOST_BYTES as u64 + 1;
    if let Err(error) = io::stdin().lock().take(most).read_to_end(&mut bytes) {
        eprintln!("cannot read: {error}");
        return ExitCode::FAILURE;
    }
    let (text, code) = match file::read_day(&bytes) {
        Ok(day) => (print::whole_day(&day), ExitCode::SUCCESS),
        Err(refusal) => (
            format!("X {} {}\n", refusal.place, refusal.number),
            ExitCode::FAILURE,
        ),
    };
    let mut out = io::stdout().lock();
    if let Err(error) = out.write_all(text.as_bytes()).and_then(|()| out.flush()) {
        eprintln!("cannot write: {error}");
        return ExitCode::FAILURE;
    }
    code
}
