//! `hov show`: what a file holds, and what is wrong with it.
//!
//! The verdict is the library's. The reading here keeps where everything is, and
//! stops where the library stops, so that it can say in words of the net what a
//! number and a spot mean. Where the two should differ, the verdict stays the
//! library's, and the page says that it is not explained.

mod blocks;
mod certificate;
mod fault;
mod fields;
mod listing;
mod log;
mod look;
mod page;
mod places;
mod reading;
mod weights;

use crate::output::{self, Trouble};
use crate::{files, names, Status};
use hovmekhar::MAX_FILE_SIZE;
use std::ffi::OsStr;

pub use look::Look;
pub(crate) use page::{count, spaced};
pub(crate) use reading::Reading;

/// Shows a file, or one of its certificates.
///
/// # Errors
///
/// When the file can't be read, or standard output does not take the page.
pub fn show(name: &OsStr, certificate: Option<usize>) -> Result<Status, Trouble> {
    let file = files::read(name, MAX_FILE_SIZE + 1)?;
    let look = Look::at(&file);
    let name = names::shown(name);
    let page = match certificate {
        None => look.page(&name),
        Some(number) => match look.certificate_page(&name, number) {
            Ok(page) => page,
            Err(missing) => {
                output::complain(&missing);
                return Ok(Status::Usage);
            }
        },
    };
    output::print(page.as_bytes())?;
    Ok(look.status())
}
