//! `hov judge`: many files on several cores, their lines in order.

use crate::names::shown;
use crate::output::{self, Trouble};
use crate::{files, Status};
use hovmekhar::{Refusal, Tally, MAX_FILE_SIZE};
use std::collections::BTreeMap;
use std::ffi::{OsStr, OsString};
use std::sync::atomic::{AtomicUsize, Ordering};
use std::sync::mpsc::{self, Receiver, Sender};
use std::thread;

/// The library's verdict on a file.
type Verdict = Result<Tally, Refusal>;

/// A file's place among the arguments, and what came of it.
type Judged = (usize, Result<Verdict, Trouble>);

/// Judges files, and prints a line for each in their order.
///
/// # Errors
///
/// When standard output does not take a line. Trouble with a file is told, and the
/// others are still judged.
pub fn judge(names: &[OsString]) -> Result<Status, Trouble> {
    let next = AtomicUsize::new(0);
    let (sender, receiver) = mpsc::channel();
    thread::scope(|scope| {
        let mut started = 0;
        for _ in 0..worker_count(names.len()) {
            let (next, sender) = (&next, sender.clone());
            let worker = move || work(names, next, sender);
            started += usize::from(thread::Builder::new().spawn_scoped(scope, worker).is_ok());
        }
        if started == 0 {
            // Without another thread all files are judged before the first line.
            work(names, &next, sender);
        } else {
            // The lines end when the last worker has ended.
            drop(sender);
        }
        print_in_order(names, receiver)
    })
}

fn worker_count(files: usize) -> usize {
    let cores = thread::available_parallelism().map_or(1, usize::from);
    cores.min(files)
}

/// Judges one file after the other that no other worker has taken, until there is
/// none or nobody prints any more.
fn work(names: &[OsString], next: &AtomicUsize, sender: Sender<Judged>) {
    let mut buffer = Vec::with_capacity(MAX_FILE_SIZE + 1);
    loop {
        let number = next.fetch_add(1, Ordering::Relaxed);
        let Some(name) = names.get(number) else {
            return;
        };
        if sender.send((number, judge_one(name, &mut buffer))).is_err() {
            return;
        }
    }
}

/// Judges one file, read in place of what the buffer held.
fn judge_one(name: &OsStr, buffer: &mut Vec<u8>) -> Result<Verdict, Trouble> {
    files::read_into(name, MAX_FILE_SIZE + 1, buffer)?;
    Ok(hovmekhar::judge_file_vec(buffer).map(|judged| judged.tally))
}

/// Prints each line as soon as it and all before it are there.
fn print_in_order(names: &[OsString], receiver: Receiver<Judged>) -> Result<Status, Trouble> {
    let mut worst = Status::Good;
    let mut waiting = BTreeMap::new();
    let mut next = 0;
    for (number, judged) in receiver {
        waiting.insert(number, judged);
        while let Some(judged) = waiting.remove(&next) {
            worst = worst.max(print(&names[next], judged)?);
            next += 1;
        }
    }
    Ok(worst)
}

fn print(name: &OsStr, judged: Result<Verdict, Trouble>) -> Result<Status, Trouble> {
    match judged {
        Ok(Ok(tally)) => {
            output::print_line(&accepted(tally, name))?;
            Ok(Status::Good)
        }
        Ok(Err(refusal)) => {
            output::print_line(&output::refused(refusal, name))?;
            Ok(Status::Refused)
        }
        Err(trouble) => {
            trouble.tell();
            Ok(Status::Trouble)
        }
    }
}

fn accepted(tally: Tally, name: &OsStr) -> String {
    let Tally {
        rows,
        allowed,
        by_place,
        by_weights,
    } = tally;
    format!(
        "accepted {rows} {allowed} {by_place} {by_weights} {}",
        shown(name)
    )
}
