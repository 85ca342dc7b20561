//! Reading files, and writing them whole or not at all.

use crate::names;
use crate::output::{self, Trouble};
use std::ffi::OsStr;
use std::fs::{self, File, OpenOptions, Permissions};
use std::io::{self, ErrorKind, Read, Write};
use std::os::fd::AsFd;
use std::path::{Path, PathBuf};
use std::process;

/// How many symbolic links are followed, as many as the system follows.
const MOST_LINKS: usize = 40;

/// How many names are tried for a temporary file.
const MOST_NAMES: usize = 1_000;

/// Reads a file up to so many bytes, or standard input for `-`. One byte more than
/// the longest is enough to see that it is longer, even where it is endless.
///
/// # Errors
///
/// When it can't be opened, or a read fails: that is never taken for its end.
pub fn read(name: &OsStr, most: usize) -> Result<Vec<u8>, Trouble> {
    let mut bytes = Vec::new();
    read_into(name, most, &mut bytes)?;
    Ok(bytes)
}

/// Reads a file like [`read`], in place of what the buffer held.
///
/// # Errors
///
/// As for [`read`].
pub fn read_into(name: &OsStr, most: usize, bytes: &mut Vec<u8>) -> Result<(), Trouble> {
    bytes.clear();
    open(name)
        .and_then(|file| file.take(most as u64).read_to_end(bytes))
        .map(|_| ())
        .map_err(|error| Trouble::reading(name, error))
}

/// Standard input as a file: its handle in the standard library takes a descriptor
/// that can't be read for an empty one.
fn open(name: &OsStr) -> io::Result<File> {
    if name == "-" {
        io::stdin().as_fd().try_clone_to_owned().map(File::from)
    } else {
        File::open(name)
    }
}

/// Writes a file whole or not at all, or standard output for `-`.
///
/// # Errors
///
/// When not all of it is written. A regular file is then as it was, and a new one
/// is not there.
pub fn write(name: &OsStr, bytes: &[u8]) -> Result<(), Trouble> {
    if name == "-" {
        return output::print(bytes);
    }
    write_file(Path::new(name), bytes).map_err(|error| Trouble::File(names::shown(name), error))
}

fn write_file(path: &Path, bytes: &[u8]) -> io::Result<()> {
    match fs::metadata(path) {
        Ok(found) if found.is_file() => replace(&target(path)?, bytes, Some(found.permissions())),
        // A device or a pipe stays what it is, and a directory does not open.
        Ok(_) => OpenOptions::new().write(true).open(path)?.write_all(bytes),
        Err(error) if error.kind() == ErrorKind::NotFound => replace(&target(path)?, bytes, None),
        Err(error) => Err(error),
    }
}

/// What a path leads to when it is a symbolic link, even where nothing is there.
fn target(path: &Path) -> io::Result<PathBuf> {
    let mut path = path.to_path_buf();
    for _ in 0..MOST_LINKS {
        let Ok(link) = fs::read_link(&path) else {
            return Ok(path);
        };
        // A link is relative to the directory that it lies in.
        path = path.parent().unwrap_or(Path::new("")).join(link);
    }
    Err(io::Error::other("too many symbolic links"))
}

/// Puts a new file in place of what is there, by way of a temporary one beside it.
fn replace(path: &Path, bytes: &[u8], permissions: Option<Permissions>) -> io::Result<()> {
    let directory = path.parent().unwrap_or(Path::new(""));
    let (temporary, file) = create_beside(directory)?;
    let done = fill(file, bytes, permissions).and_then(|()| fs::rename(&temporary, path));
    if done.is_err() {
        // The first trouble is the one to tell.
        let _ = fs::remove_file(&temporary);
    }
    done
}

/// A new file of a name that nobody else has taken.
fn create_beside(directory: &Path) -> io::Result<(PathBuf, File)> {
    for attempt in 0..MOST_NAMES {
        let temporary = directory.join(format!(".hov-{}-{attempt}.tmp", process::id()));
        match File::create_new(&temporary) {
            Err(error) if error.kind() == ErrorKind::AlreadyExists => {}
            created => return created.map(|file| (temporary, file)),
        }
    }
    Err(ErrorKind::AlreadyExists.into())
}

/// Writes a temporary file, with its permissions before its contents, so that nobody
/// reads there what he may not read in the end.
fn fill(mut file: File, bytes: &[u8], permissions: Option<Permissions>) -> io::Result<()> {
    if let Some(permissions) = permissions {
        file.set_permissions(permissions)?;
    }
    file.write_all(bytes)?;
    file.sync_all()
}
