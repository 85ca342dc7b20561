//! Asks whether a net may run the gate, and whether it permits a word.
//!
//! Run with `cargo run --example gate -- FILE EVENT...`. Opens the sealed file,
//! judges its bundle, and screens the word of the events, each of 1 to 3 decimal
//! digits and at most 255; no event is the empty word.
//!
//! Prints `accepted` with four counts, then `permitted`, or `stopped` with a
//! position, a place and how many tokens it lacks. The first call that refuses ends
//! it with `refused`, a number and a spot; what the number means goes to standard
//! error.
//!
//! Ends with 0 for a word that is permitted, 1 for one that is stopped and for a
//! refusal, 2 for wrong arguments, 3 for trouble with reading or writing. The
//! program in C, `examples/gate.c`, has the same lines and statuses.

use hovmekhar::{Refusal, Screened, Tally, MAX_FILE_SIZE};
use std::env;
use std::ffi::OsStr;
use std::fmt::Display;
use std::fs::File;
use std::io::{self, Read, Write};
use std::path::Path;
use std::process::ExitCode;

const PERMITTED: u8 = 0;
const NOT_PERMITTED: u8 = 1;
const USAGE: u8 = 2;
const TROUBLE: u8 = 3;

fn main() -> ExitCode {
    let mut arguments = env::args_os().skip(1);
    let Some(path) = arguments.next() else {
        return say(USAGE, "usage: gate FILE EVENT...");
    };
    let mut word = Vec::new();
    for (position, argument) in arguments.enumerate() {
        let Some(event) = read_event(&argument) else {
            let line =
                format!("gate: the event at position {position} is not a number from 0 to 255");
            return say(USAGE, line);
        };
        word.push(event);
    }

    let path = Path::new(&path);
    let file = match read_file(path) {
        Ok(file) => file,
        Err(error) => return say(TROUBLE, format!("gate: {}: {error}", path.display())),
    };
    let mut lines = String::new();
    let status = answer(&file, &word, &mut lines).unwrap_or_else(|refusal| {
        if let Some(kind) = refusal.kind() {
            say(NOT_PERMITTED, format!("gate: {kind}"));
        }
        lines += &format!("refused {} {}\n", refusal.number, refusal.spot);
        NOT_PERMITTED
    });
    match print(&lines) {
        Ok(()) => ExitCode::from(status),
        // An answer that was not written whole is none.
        Err(error) => say(TROUBLE, format!("gate: standard output: {error}")),
    }
}

/// Writes a line to standard error, and gives the status to end with. Where that
/// can't be written either, the status still tells; `eprintln!` would panic.
fn say(status: u8, line: impl Display) -> ExitCode {
    let _ = writeln!(io::stderr(), "{line}");
    ExitCode::from(status)
}

/// Reads an event. Each character is looked at, since `parse` also takes a sign.
fn read_event(text: &OsStr) -> Option<u8> {
    let text = text.to_str()?;
    let digits = text.bytes().all(|character| character.is_ascii_digit());
    match text.len() {
        1..=3 if digits => text.parse().ok(),
        _ => None,
    }
}

/// Reads one byte more than a file may have, so that a longer one is seen.
fn read_file(path: &Path) -> io::Result<Vec<u8>> {
    let mut file = Vec::new();
    File::open(path)?
        .take(MAX_FILE_SIZE as u64 + 1)
        .read_to_end(&mut file)?;
    Ok(file)
}

/// Judging and screening, each with its line. Returns the status.
fn answer(file: &[u8], word: &[u8], lines: &mut String) -> Result<u8, Refusal> {
    let judged = hovmekhar::judge_file_vec(file)?;
    let Tally {
        rows,
        allowed,
        by_place,
        by_weights,
    } = judged.tally;
    *lines += &format!("accepted {rows} {allowed} {by_place} {by_weights}\n");

    match hovmekhar::screen(&judged.bundle, word)? {
        Screened::Permitted => {
            *lines += "permitted\n";
            Ok(PERMITTED)
        }
        Screened::Stopped {
            position,
            place,
            shortfall,
        } => {
            *lines += &format!("stopped {position} {place} {shortfall}\n");
            Ok(NOT_PERMITTED)
        }
    }
}

/// Prints to standard output; `print!` would panic where that fails.
fn print(lines: &str) -> io::Result<()> {
    let mut output = io::stdout().lock();
    output.write_all(lines.as_bytes())?;
    output.flush()
}
