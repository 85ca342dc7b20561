//! The program `judge`, run as a person or a script runs it.
//!
//! It is taken from the directory that the environment variable `HOVMEKHAR_BIN_DIR`
//! names, else from `crates/judge/out` beside the Rust workspace.

use std::env;
use std::ffi::OsStr;
use std::fs::File;
use std::io::{ErrorKind, Write};
use std::path::{Path, PathBuf};
use std::process::{Command, Stdio};

const VARIABLE: &str = "HOVMEKHAR_BIN_DIR";

/// The largest length of a sealed file.
pub const MAX_FILE_SIZE: usize = 65_536;

/// What the program wrote.
#[derive(Clone, Debug, PartialEq, Eq)]
pub struct Done {
    /// To standard output.
    pub output: String,
    /// To standard error.
    pub errors: String,
}

/// Where the program is.
///
/// # Panics
///
/// When it is missing.
pub fn path() -> PathBuf {
    let directory = match env::var_os(VARIABLE) {
        Some(directory) => PathBuf::from(directory),
        None => Path::new(env!("CARGO_MANIFEST_DIR")).join("../../crates/judge/out"),
    };
    let program = directory.join("judge");
    assert!(
        program.is_file(),
        "The program {} is missing: build it with `rt run` in crates/judge, \
         or set {VARIABLE} to the absolute path of the directory that holds it.",
        program.display()
    );
    program
}

/// Runs the program with these arguments, this standard input, and this standard
/// output, of which all is returned where it is a pipe.
///
/// # Panics
///
/// When it does not end by itself with status 0, the only one that it has.
pub fn run_with(arguments: &[&OsStr], input: Stdio, output: Stdio) -> Done {
    run_to(arguments, input, output, &[], 1)
}

/// Runs the program, and writes these bytes to its standard input, where that is a
/// pipe, in pieces of this many bytes.
fn run_to(arguments: &[&OsStr], input: Stdio, output: Stdio, bytes: &[u8], piece: usize) -> Done {
    let mut running = Command::new(path())
        .args(arguments)
        .stdin(input)
        .stdout(output)
        .stderr(Stdio::piped())
        .spawn()
        .expect("the program starts");
    if let Some(mut pipe) = running.stdin.take() {
        for piece in bytes.chunks(piece) {
            match pipe.write_all(piece) {
                // It need not read more than the longest input and a byte.
                Err(error) if error.kind() == ErrorKind::BrokenPipe => break,
                result => result.expect("the program reads"),
            }
        }
    }
    let done = running.wait_with_output().expect("the program ends");
    assert!(done.status.success(), "judge ended with {}", done.status);
    Done {
        output: String::from_utf8(done.stdout).expect("the program prints text"),
        errors: String::from_utf8(done.stderr).expect("messages are text"),
    }
}

/// Runs the program with this standard input, in pieces of this many bytes.
///
/// # Panics
///
/// As [`run_with`] does.
pub fn run_in_pieces(input: &[u8], piece: usize) -> Done {
    run_to(&[], Stdio::piped(), Stdio::piped(), input, piece)
}

/// Runs the program with this standard input.
pub fn run(input: &[u8]) -> Done {
    run_in_pieces(input, input.len().max(1))
}

/// Runs the program with this standard input and a standard output that takes
/// nothing, and returns what it wrote to standard error.
///
/// # Panics
///
/// As [`run_with`] does, and when there is no `/dev/full`.
pub fn errors_when_full(input: &[u8]) -> String {
    let full = File::create("/dev/full").expect("a device that is full");
    let piece = input.len().max(1);
    run_to(&[], Stdio::piped(), full.into(), input, piece).errors
}
