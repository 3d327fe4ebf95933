//! Runs programs over a folder of day files.
//!
//! `drive compare PROGRAM REFERENCE DIR` compares output and status of both, file by file, and
//! stops at the first difference; `drive coverage REFERENCE DIR` counts what came out.

use std::collections::BTreeMap;
use std::fs::{self, File};
use std::io;
use std::path::{Path, PathBuf};
use std::process::{Command, ExitCode, Stdio};

/// What a program answered.
#[derive(PartialEq, Eq)]
struct Answer {
    out: Vec<u8>,
    /// None where a signal ended the program.
    status: Option<i32>,
}

impl Answer {
    fn status_text(&self) -> String {
        self.status
            .map_or("none (a signal)".to_string(), |status| status.to_string())
    }
}

fn ask(program: &str, day: &Path) -> io::Result<Answer> {
    let output = Command::new(program)
        .stdin(File::open(day)?)
        .stderr(Stdio::inherit())
        .output()
        .map_err(|error| io::Error::new(error.kind(), format!("{program}: {error}")))?;
    Ok(Answer {
        out: output.stdout,
        status: output.status.code(),
    })
}

/// The day files of a folder, in the order of their names.
fn days(folder: &str) -> io::Result<Vec<PathBuf>> {
    let mut days = Vec::new();
    for entry in fs::read_dir(folder)? {
        let path = entry?.path();
        if path.extension().is_some_and(|extension| extension == "day") {
            days.push(path);
        }
    }
    days.sort();
    Ok(days)
}

/// Compares both programs; the answer is whether they agree on every file.
fn compare(program: &str, reference: &str, folder: &str) -> io::Result<bool> {
    let days = days(folder)?;
    let (mut printed, mut refused) = (0, 0);
    for day in &days {
        let (theirs, ours) = (ask(program, day)?, ask(reference, day)?);
        if theirs != ours {
            tell_difference(day, &theirs, &ours);
            return Ok(false);
        }
        match ours.status {
            Some(0) => printed += 1,
            _ => refused += 1,
        }
    }
    println!(
        "{} files agree ({printed} printed days, {refused} refused files)",
        days.len()
    );
    Ok(true)
}

fn tell_difference(day: &Path, theirs: &Answer, ours: &Answer) {
    println!("{}: the outputs differ", day.display());
    println!(
        "  status: program {}, reference {}",
        theirs.status_text(),
        ours.status_text()
    );
    let mut program_lines = theirs.out.split_inclusive(|&byte| byte == b'\n');
    let mut reference_lines = ours.out.split_inclusive(|&byte| byte == b'\n');
    for line in 1.. {
        let (program, reference) = (program_lines.next(), reference_lines.next());
        if program == reference {
            if program.is_none() {
                println!("  the texts are equal");
                return;
            }
            continue;
        }
        println!("  line {line}, program:   {}", shown(program));
        println!("  line {line}, reference: {}", shown(reference));
        return;
    }
}

fn shown(line: Option<&[u8]>) -> String {
    line.map_or("(no line)".to_string(), |line| {
        format!("{:?}", String::from_utf8_lossy(line))
    })
}

/// The kinds of line and of refusal that a folder should bring.
fn kinds() -> Vec<String> {
    let lines = [
        "C with a price",
        "C without a price",
        "S",
        "A all carried",
        "A uncarried",
        "W",
        "U penalty",
        "U refund only",
        "N",
        "T",
    ];
    let numbers = (1..=34).filter(|number| *number != 7 && !(24..=29).contains(number));
    lines
        .map(String::from)
        .into_iter()
        .chain(numbers.map(|number| format!("X {number:>2}")))
        .collect()
}

fn kind_of(line: &str) -> String {
    let fields: Vec<&str> = line.split(' ').collect();
    let last = *fields.last().unwrap_or(&"");
    match fields[0] {
        "C" if last == "-" => "C without a price".to_string(),
        "C" => "C with a price".to_string(),
        "A" if last == "0" => "A all carried".to_string(),
        "A" => "A uncarried".to_string(),
        "U" if fields.get(3) == Some(&"0") => "U refund only".to_string(),
        "U" => "U penalty".to_string(),
        "X" => format!("X {last:>2}"),
        letter => letter.to_string(),
    }
}

/// Counts files and lines of each kind; the answer is whether every kind occurs.
fn coverage(reference: &str, folder: &str) -> io::Result<bool> {
    let mut counts: BTreeMap<String, (u64, u64)> = BTreeMap::new();
    let mut order = kinds();
    let days = days(folder)?;
    for day in &days {
        let answer = ask(reference, day)?;
        let text = String::from_utf8_lossy(&answer.out);
        let mut here: BTreeMap<String, u64> = BTreeMap::new();
        for line in text.lines() {
            *here.entry(kind_of(line)).or_default() += 1;
        }
        for (kind, lines) in here {
            let count = counts.entry(kind).or_default();
            *count = (count.0 + 1, count.1 + lines);
        }
    }
    order.extend(
        counts
            .keys()
            .filter(|kind| !kinds().contains(kind))
            .cloned(),
    );
    println!(
        "{:<18} {:>6} {:>8}   of {} files",
        "kind",
        "files",
        "lines",
        days.len()
    );
    for kind in &order {
        let (files, lines) = counts.get(kind).copied().unwrap_or_default();
        println!("{kind:<18} {files:>6} {lines:>8}");
    }
    Ok(order.iter().all(|kind| counts.contains_key(kind)))
}

fn main() -> ExitCode {
    let arguments: Vec<String> = std::env::args().skip(1).collect();
    let arguments: Vec<&str> = arguments.iter().map(String::as_str).collect();
    let done = match arguments[..] {
        ["compare", program, reference, folder] => compare(program, reference, folder),
        ["coverage", reference, folder] => coverage(reference, folder),
        _ => Err(io::Error::other(
            "compare PROGRAM REFERENCE DIR | coverage REFERENCE DIR",
        )),
    };
    match done {
        Ok(true) => ExitCode::SUCCESS,
        Ok(false) => ExitCode::FAILURE,
        Err(error) => {
            eprintln!("drive: {error}");
            ExitCode::FAILURE
        }
    }
}
