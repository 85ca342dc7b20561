//! The command-line tool `hov`: judges, screens, replays, seals, unseals, prunes, converts
//! and shows sealed files, and finds words that lead to an event, with the proved library.
//!
//! All of it is here, so that tests can call it; the binary only hands over its
//! arguments. Every verdict is the library's: nothing here decides by itself.

#![forbid(unsafe_code)]
#![deny(missing_docs)]

mod args;
mod editions;
mod files;
mod judge;
mod names;
mod output;
mod pruning;
mod reach;
mod replay;
mod screen;
mod sealing;
pub mod show;
mod status;

use args::Request;
use output::Trouble;
use std::ffi::OsString;

pub use status::Status;

/// Does what the arguments ask for, which are those after the program's name, and
/// tells how it ended.
pub fn run(arguments: impl Iterator<Item = OsString>) -> Status {
    let done = match args::parse(arguments) {
        Ok(request) => answer(request),
        Err(usage) => {
            output::complain(&usage.to_string());
            Ok(Status::Usage)
        }
    };
    done.unwrap_or_else(|trouble| {
        trouble.tell();
        Status::Trouble
    })
}

fn answer(request: Request) -> Result<Status, Trouble> {
    match request {
        Request::Help => output::print(args::HELP.as_bytes()).map(|()| Status::Good),
        Request::Version => {
            let line = concat!("hov ", env!("CARGO_PKG_VERSION"), "\n");
            output::print(line.as_bytes()).map(|()| Status::Good)
        }
        Request::Judge { files } => judge::judge(&files),
        Request::Screen { file, with, word } => match with {
            None => screen::screen(&file, &word),
            Some(with) => screen::screen_joined(&file, &with, &word),
        },
        Request::Reach { file, wanted } => reach::reach(&file, wanted),
        Request::Replay { parts } => replay::replay(&parts),
        Request::Seal { input, output } => sealing::seal(&input, &output),
        Request::Unseal { input, output } => sealing::unseal(&input, &output),
        Request::Prune { input, output } => pruning::prune(&input, &output),
        Request::Convert {
            edition,
            input,
            output,
        } => editions::convert(edition, &input, &output),
        Request::Show { file, certificate } => show::show(&file, certificate),
    }
}
