//! The arguments.

mod options;
mod values;

use crate::editions::Edition;
use crate::names::shown;
use options::split;
use std::ffi::OsString;
use std::fmt;
use values::{event, file_and_word, one_standard_input};

/// What the arguments ask for.
#[derive(Debug, PartialEq, Eq)]
pub enum Request {
    /// The help.
    Help,
    /// The version.
    Version,
    /// A line for each file.
    Judge {
        /// At least one, `-` at most once.
        files: Vec<OsString>,
    },
    /// Whether a net permits a word.
    Screen {
        /// The file of the net; `-` for it or for the other one, not for both.
        file: OsString,
        /// The file of a net that is joined to it.
        with: Option<OsString>,
        /// The events of the word; 255 stands for every higher number.
        word: Vec<u8>,
    },
    /// A shortest word that leads to an event.
    Reach {
        /// The file of the net.
        file: OsString,
        /// The event; 255 stands for every higher number.
        wanted: u8,
    },
    /// The tokens of a net, event by event, and of those that take its place.
    Replay {
        /// The nets in turn, at least one; `-` for one of them at most.
        parts: Vec<Part>,
    },
    /// A sealed file of a bundle.
    Seal {
        /// Where the bundle is.
        input: OsString,
        /// Where the file goes.
        output: OsString,
    },
    /// The bundle of a sealed file.
    Unseal {
        /// Where the file is.
        input: OsString,
        /// Where the bundle goes.
        output: OsString,
    },
    /// A sealed file without its idle places.
    Prune {
        /// Where the file is.
        input: OsString,
        /// Where the other file goes.
        output: OsString,
    },
    /// A sealed file in an edition.
    Convert {
        /// The edition that is wanted.
        edition: Edition,
        /// Where the file is.
        input: OsString,
        /// Where the other file goes.
        output: OsString,
    },
    /// What a file holds.
    Show {
        /// The file.
        file: OsString,
        /// The only certificate to be shown.
        certificate: Option<usize>,
    },
}

/// A net, and events to play on it.
#[derive(Clone, Debug, PartialEq, Eq)]
pub struct Part {
    /// The file of the net.
    pub file: OsString,
    /// The events; 255 stands for every higher number.
    pub word: Vec<u8>,
}

/// What `--help` prints.
pub const HELP: &str = include_str!("help.txt");

/// Arguments that ask for nothing: what is wrong with them, and what would be right.
#[derive(Debug, PartialEq, Eq)]
pub struct Usage {
    problem: String,
    right: &'static str,
}

impl fmt::Display for Usage {
    fn fmt(&self, f: &mut fmt::Formatter<'_>) -> fmt::Result {
        let Self { problem, right } = self;
        write!(f, "{problem}; usage: {right} (hov --help says more)")
    }
}

/// The commands.
#[derive(Clone, Copy)]
enum Command {
    Judge,
    Screen,
    Reach,
    Replay,
    Seal,
    Unseal,
    Prune,
    Convert,
    Show,
}

impl Command {
    fn of(name: &str) -> Option<Self> {
        match name {
            "judge" => Some(Self::Judge),
            "screen" => Some(Self::Screen),
            "reach" => Some(Self::Reach),
            "replay" => Some(Self::Replay),
            "seal" => Some(Self::Seal),
            "unseal" => Some(Self::Unseal),
            "prune" => Some(Self::Prune),
            "convert" => Some(Self::Convert),
            "show" => Some(Self::Show),
            _ => None,
        }
    }

    fn usage(self) -> &'static str {
        match self {
            Self::Judge => "hov judge FILE...",
            Self::Screen => "hov screen FILE [--with FILE2] EVENT...",
            Self::Reach => "hov reach FILE EVENT",
            Self::Replay => "hov replay FILE EVENT... [--then FILE2 EVENT...]...",
            Self::Seal => "hov seal IN OUT",
            Self::Unseal => "hov unseal IN OUT",
            Self::Prune => "hov prune IN OUT",
            Self::Convert => "hov convert --to new|old IN OUT",
            Self::Show => "hov show FILE [--certificate N]",
        }
    }

    fn wrong(self, problem: String) -> Usage {
        let right = self.usage();
        Usage { problem, right }
    }
}

/// Reads the arguments after the program's name. No input is read for it.
///
/// # Errors
///
/// When they ask for nothing that there is.
pub fn parse(mut arguments: impl Iterator<Item = OsString>) -> Result<Request, Usage> {
    let right = "hov judge|screen|reach|replay|seal|unseal|prune|convert|show ARGUMENT...";
    let wrong = |problem| Usage { problem, right };
    let first = arguments.next();
    let first = first.ok_or_else(|| wrong("no command".into()))?;
    let alone = |request, rest: Vec<OsString>| match rest.first() {
        None => Ok(request),
        Some(more) => Err(wrong(format!("too many arguments: '{}'", shown(more)))),
    };
    match first.to_str() {
        Some("--help" | "-h" | "help") => alone(Request::Help, arguments.collect()),
        Some("--version") => alone(Request::Version, arguments.collect()),
        name => match name.and_then(Command::of) {
            Some(command) => parse_command(command, arguments),
            None => Err(wrong(format!("no such command: '{}'", shown(&first)))),
        },
    }
}

fn parse_command(
    command: Command,
    arguments: impl Iterator<Item = OsString>,
) -> Result<Request, Usage> {
    let Some(split) = split(command, arguments)? else {
        return Ok(Request::Help);
    };
    let operands = split.operands;
    match command {
        Command::Judge => judge(operands),
        Command::Screen => screen(operands, split.with),
        Command::Reach => {
            let [file, wanted] = exactly(command, operands)?;
            let wanted = event(command, &wanted)?;
            Ok(Request::Reach { file, wanted })
        }
        Command::Replay => replay(split.before, operands),
        Command::Seal => {
            exactly(command, operands).map(|[input, output]| Request::Seal { input, output })
        }
        Command::Unseal => {
            exactly(command, operands).map(|[input, output]| Request::Unseal { input, output })
        }
        Command::Prune => {
            exactly(command, operands).map(|[input, output]| Request::Prune { input, output })
        }
        Command::Convert => {
            let missing = || command.wrong("no edition: '--to new' or '--to old'".into());
            let edition = split.edition.ok_or_else(missing)?;
            let [input, output] = exactly(command, operands)?;
            Ok(Request::Convert {
                edition,
                input,
                output,
            })
        }
        Command::Show => {
            let [file] = exactly(command, operands)?;
            let certificate = split.certificate;
            Ok(Request::Show { file, certificate })
        }
    }
}

fn judge(files: Vec<OsString>) -> Result<Request, Usage> {
    if files.is_empty() {
        return Err(Command::Judge.wrong("no file".into()));
    }
    one_standard_input(Command::Judge, &files)?;
    Ok(Request::Judge { files })
}

fn screen(operands: Vec<OsString>, with: Option<OsString>) -> Result<Request, Usage> {
    // An input that is there twice is told before an event that is wrong.
    if let Some(file) = operands.first() {
        one_standard_input(Command::Screen, [file].into_iter().chain(&with))?;
    }
    let Part { file, word } = file_and_word(Command::Screen, operands)?;
    Ok(Request::Screen { file, with, word })
}

/// The operands before each `--then`, and those behind the last.
fn replay(before: Vec<Vec<OsString>>, last: Vec<OsString>) -> Result<Request, Usage> {
    let mut all = before;
    all.push(last);
    // As in screening, an input that is there twice is told first.
    let files = all.iter().filter_map(|operands| operands.first());
    one_standard_input(Command::Replay, files)?;
    let part = |operands| file_and_word(Command::Replay, operands);
    let parts = all.into_iter().map(part).collect::<Result<_, Usage>>()?;
    Ok(Request::Replay { parts })
}

/// As many arguments as the command takes.
fn exactly<const COUNT: usize>(
    command: Command,
    operands: Vec<OsString>,
) -> Result<[OsString; COUNT], Usage> {
    operands.try_into().map_err(|operands: Vec<OsString>| {
        let many = if operands.len() < COUNT {
            "few"
        } else {
            "many"
        };
        command.wrong(format!("too {many} arguments"))
    })
}
