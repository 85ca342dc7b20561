//! `hov seal` and `hov unseal`.

use crate::output::{self, Trouble};
use crate::{files, Status};
use hovmekhar::{Refusal, MAX_BUNDLE_SIZE, MAX_FILE_SIZE};
use std::ffi::OsStr;

/// Seals a bundle.
///
/// # Errors
///
/// When the input can't be read, or the output not be written.
pub fn seal(input: &OsStr, output: &OsStr) -> Result<Status, Trouble> {
    let bundle = files::read(input, MAX_BUNDLE_SIZE + 1)?;
    finish(hovmekhar::seal_vec(&bundle), input, output)
}

/// Unseals a file.
///
/// # Errors
///
/// As for [`seal`].
pub fn unseal(input: &OsStr, output: &OsStr) -> Result<Status, Trouble> {
    let file = files::read(input, MAX_FILE_SIZE + 1)?;
    finish(hovmekhar::open_vec(&file), input, output)
}

/// Writes a result, or tells its refusal.
fn finish(
    result: Result<Vec<u8>, Refusal>,
    input: &OsStr,
    output: &OsStr,
) -> Result<Status, Trouble> {
    match result {
        Ok(bytes) => files::write(output, &bytes).map(|()| Status::Good),
        Err(refusal) => Ok(refused(refusal, input)),
    }
}

/// Tells a refusal on standard error, since a result may go to standard output and may be
/// any bytes, also those of a refusal.
pub fn refused(refusal: Refusal, input: &OsStr) -> Status {
    output::tell(&output::refused(refusal, input));
    Status::Refused
}
