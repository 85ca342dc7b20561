//! `hov convert`.

use crate::output::{self, Trouble};
use crate::sealing::refused;
use crate::{files, Status};
use hovmekhar::{Refusal, MAX_FILE_SIZE};
use std::ffi::OsStr;
use std::fmt;

/// The edition that is wanted.
#[derive(Clone, Copy, Debug, PartialEq, Eq)]
pub enum Edition {
    /// With marks and second lists.
    New,
    /// Without.
    Old,
}

impl Edition {
    /// The edition of this name.
    pub fn of(name: &OsStr) -> Option<Self> {
        match name.to_str()? {
            "new" => Some(Self::New),
            "old" => Some(Self::Old),
            _ => None,
        }
    }

    fn convert(self, bundle: &[u8]) -> Result<Vec<u8>, Refusal> {
        match self {
            Self::New => hovmekhar::to_new_vec(bundle),
            Self::Old => hovmekhar::to_old_vec(bundle),
        }
    }
}

impl fmt::Display for Edition {
    fn fmt(&self, f: &mut fmt::Formatter<'_>) -> fmt::Result {
        f.write_str(match self {
            Self::New => "new",
            Self::Old => "old",
        })
    }
}

/// Writes a sealed file in an edition, and tells what became of its bundle: on standard
/// error, since the result may go to standard output.
///
/// # Errors
///
/// When the input can't be read, or the output not be written.
pub fn convert(edition: Edition, input: &OsStr, output: &OsStr) -> Result<Status, Trouble> {
    let file = files::read(input, MAX_FILE_SIZE + 1)?;
    match converted(edition, &file) {
        Ok((sealed, line)) => {
            files::write(output, &sealed)?;
            output::tell(&line);
            Ok(Status::Good)
        }
        Err(refusal) => Ok(refused(refusal, input)),
    }
}

/// The sealed file in this edition, and the line that tells of it.
fn converted(edition: Edition, file: &[u8]) -> Result<(Vec<u8>, String), Refusal> {
    let bundle = hovmekhar::open_vec(file)?;
    let converted = edition.convert(&bundle)?;
    let line = if converted == bundle {
        format!("copied: in the {edition} edition already")
    } else {
        let (before, now) = (bundle.len(), converted.len());
        format!("converted to the {edition} edition: the bundle has {now} bytes, and had {before}")
    };
    Ok((hovmekhar::seal_vec(&converted)?, line))
}
