//! `hov`: judges, screens, replays, seals, unseals, prunes, converts and shows sealed files.

#![forbid(unsafe_code)]
#![deny(missing_docs)]

use std::env;
use std::process::ExitCode;

fn main() -> ExitCode {
    cli::run(env::args_os().skip(1)).into()
}
