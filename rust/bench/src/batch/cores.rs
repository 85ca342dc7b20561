//! The cores that a batch may use.

use std::process::{Command, Stdio};
use std::{fs, io};

/// The cores that this program may run on.
pub fn allowed() -> io::Result<Vec<usize>> {
    let status = fs::read_to_string("/proc/self/status")?;
    let mut lists = status
        .lines()
        .filter_map(|line| line.strip_prefix("Cpus_allowed_list:"));
    let cores = lists.next().and_then(|list| listed(list.trim()));
    cores.ok_or_else(|| io::Error::other("/proc/self/status does not list them"))
}

/// The numbers of a list like `0-2,5`.
fn listed(list: &str) -> Option<Vec<usize>> {
    let mut cores = Vec::new();
    for part in list.split(',') {
        let (first, last) = part.split_once('-').unwrap_or((part, part));
        let range: (usize, usize) = (first.parse().ok()?, last.parse().ok()?);
        cores.extend(range.0..=range.1);
    }
    Some(cores)
}

/// Gives this thread no other core than these for the rest of its life, and so every process
/// that it starts. The standard library can't, so `taskset` does.
pub fn pin_this_thread(cores: &[usize]) -> Result<(), String> {
    let failed = |error: io::Error| format!("taskset can't be run: {error}");
    let thread = fs::read_link("/proc/thread-self").map_err(failed)?;
    let thread = thread.file_name().unwrap_or_default();
    let list: Vec<String> = cores.iter().map(usize::to_string).collect();
    let status = Command::new("taskset")
        .args(["--pid", "--cpu-list", &list.join(",")])
        .arg(thread)
        .stdout(Stdio::null())
        .status()
        .map_err(failed)?;
    match status.success() {
        true => Ok(()),
        false => Err(format!("taskset ended with {status}")),
    }
}
