//! `hov prune`.

use crate::output::{self, Trouble};
use crate::sealing::refused;
use crate::show::{count, Reading};
use crate::{files, Status};
use hovmekhar::{Refusal, MAX_FILE_SIZE};
use std::ffi::OsStr;

/// Writes a sealed file without its idle places, and tells how many these are: on standard
/// error, since the result may go to standard output.
///
/// # Errors
///
/// When the input can't be read, or the output not be written.
pub fn prune(input: &OsStr, output: &OsStr) -> Result<Status, Trouble> {
    let file = files::read(input, MAX_FILE_SIZE + 1)?;
    match pruned(&file) {
        Ok((sealed, line)) => {
            files::write(output, &sealed)?;
            output::tell(&line);
            Ok(Status::Good)
        }
        Err(refusal) => Ok(refused(refusal, input)),
    }
}

/// The sealed file without its idle places, and the line that tells of them.
fn pruned(file: &[u8]) -> Result<(Vec<u8>, String), Refusal> {
    let bundle = hovmekhar::open_vec(file)?;
    let pruned = hovmekhar::prune_vec(&bundle)?;
    let [before, left] = [&bundle, &pruned].map(|bundle| Reading::of(bundle).places.len());
    let places = count(before, "place");
    let line = format!("pruned {} of {places}: {left} left", before - left);
    Ok((hovmekhar::seal_vec(&pruned)?, line))
}
