//! `hov screen`.

use crate::output::{self, Trouble};
use crate::show::count;
use crate::{files, names, Status};
use hovmekhar::{Refusal, Screened, MAX_FILE_SIZE};
use std::ffi::{OsStr, OsString};

/// Replays a word on the net of a file.
///
/// # Errors
///
/// When the file can't be read, or standard output does not take the line.
pub fn screen(name: &OsStr, word: &[u8]) -> Result<Status, Trouble> {
    let file = read(name)?;
    let screened = hovmekhar::open_vec(&file).and_then(|bundle| hovmekhar::screen(&bundle, word));
    match screened {
        Ok(screened) => told(screened, word, |_| String::new()),
        Err(refusal) => refused(refusal, name),
    }
}

/// Replays a word on the joined nets of two files.
///
/// # Errors
///
/// When one of the files can't be read, or standard output does not take the line.
pub fn screen_joined(name: &OsStr, with: &OsStr, word: &[u8]) -> Result<Status, Trouble> {
    // Both are read before one is refused: trouble has the higher status.
    let files = [read(name)?, read(with)?];
    match files.map(|file| hovmekhar::open_vec(&file)) {
        [Err(refusal), _] => refused(refusal, name),
        [_, Err(refusal)] => refused(refusal, with),
        [Ok(first), Ok(second)] => {
            let joined = Joined {
                names: [name, with],
                bundles: [first, second],
            };
            joined.screen(word)
        }
    }
}

/// Two bundles, with the names of their files.
struct Joined<'n> {
    names: [&'n OsStr; 2],
    bundles: [Vec<u8>; 2],
}

impl Joined<'_> {
    fn screen(&self, word: &[u8]) -> Result<Status, Trouble> {
        let [first, second] = &self.bundles;
        match hovmekhar::screen_joined(first, second, word) {
            Ok(screened) => told(screened, word, |position| self.whose(word, position)),
            Err(refusal) => refused(refusal, &self.subject(refusal)),
        }
    }

    /// Whose place refuses the first step that is refused, and which one it is there: of
    /// the first net that stops the word at this position by itself.
    fn whose(&self, word: &[u8], position: usize) -> String {
        let own_place = |bundle| match hovmekhar::screen(bundle, word) {
            Ok(Screened::Stopped {
                position: own,
                place,
                ..
            }) if own == position => Some(place),
            _ => None,
        };
        let mut nets = self.bundles.iter().zip(self.names);
        let found = nets.find_map(|(bundle, name)| Some((own_place(bundle)?, name)));
        found.map_or(String::new(), |(place, name)| {
            format!(" (place {place} of {})", names::shown(name))
        })
    }

    /// What is refused: the file whose bundle is, the first before the second, or both
    /// where the word or the event counts are. The empty word has a bundle's own refusals.
    fn subject(&self, refusal: Refusal) -> OsString {
        let is_refused = |bundle: &Vec<u8>| hovmekhar::screen(bundle, &[]) == Err(refusal);
        match self.bundles.iter().position(is_refused) {
            Some(side) => self.names[side].to_owned(),
            None => self.names.join(OsStr::new(" with ")),
        }
    }
}

/// Reads a sealed file, or enough of a longer one.
///
/// # Errors
///
/// When it can't be read.
pub fn read(name: &OsStr) -> Result<Vec<u8>, Trouble> {
    files::read(name, MAX_FILE_SIZE + 1)
}

/// Prints what is refused.
///
/// # Errors
///
/// When standard output does not take the line.
pub fn refused(refusal: Refusal, name: &OsStr) -> Result<Status, Trouble> {
    output::print_line(&output::refused(refusal, name))?;
    Ok(Status::Refused)
}

/// Prints what the net says to a word. `whose` tells more of the place that refuses the
/// event at a position.
///
/// # Errors
///
/// When standard output does not take the line.
pub fn told(
    screened: Screened,
    word: &[u8],
    whose: impl FnOnce(usize) -> String,
) -> Result<Status, Trouble> {
    let (status, line) = match screened {
        Screened::Permitted => (Status::Good, "permitted".into()),
        Screened::Stopped {
            position,
            place,
            shortfall,
        } => {
            let numbers = format!("stopped {position} {place} {shortfall}");
            let by = format!("place {place}{}", whose(position));
            let line = match word.get(position) {
                Some(event) => {
                    let step = format!("event {event} at position {position}");
                    let missing = count(shortfall, "token");
                    format!("{numbers}: {step}, refused by {by}; {missing} missing")
                }
                // The library stops at an event of the word.
                None => numbers,
            };
            (Status::Refused, line)
        }
    };
    output::print_line(&line)?;
    Ok(status)
}
