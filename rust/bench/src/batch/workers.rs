//! Workers: `hov` on parts of a batch, several at the same time.

use super::cores::pin_this_thread;
use super::files::{Batch, FILES};
use std::ffi::OsStr;
use std::fs::{self, File};
use std::io;
use std::path::{Path, PathBuf};
use std::process::{Command, Stdio};
use std::sync::Barrier;
use std::thread;
use std::time::Instant;

/// How the files of a worker are judged.
#[derive(Clone, Copy)]
pub enum Way {
    /// All in one process.
    OneProcess,
    /// Each in a process of its own, one after the other.
    ProcessEach,
}

/// Who judges which files, at the same time as other workers.
pub struct Worker {
    /// The only cores for it.
    cores: Vec<usize>,
    /// The numbers of its files.
    files: Vec<usize>,
}

impl Worker {
    /// One for each of the groups of cores, which deal the files out among them.
    pub fn all(groups: &[&[usize]]) -> Vec<Self> {
        let worker = |(number, cores): (usize, &&[usize])| Self {
            cores: cores.to_vec(),
            files: (number..FILES).step_by(groups.len()).collect(),
        };
        groups.iter().enumerate().map(worker).collect()
    }
}

/// Judges all files once, and returns how many a second. The workers start together, and the
/// time is up when the last one has ended; what was printed is looked at afterwards.
pub fn rate(hov: &Path, batch: &Batch, workers: &[Worker], way: Way) -> Result<f64, String> {
    let ready = Barrier::new(workers.len() + 1);
    let seconds = thread::scope(|scope| {
        let run = |(number, worker)| {
            let ready = &ready;
            scope.spawn(move || run(hov, batch, number, worker, way, ready))
        };
        let running: Vec<_> = workers.iter().enumerate().map(run).collect();
        ready.wait();
        let start = Instant::now();
        for worker in running {
            worker.join().expect("a worker does not panic")?;
        }
        Ok::<f64, String>(start.elapsed().as_secs_f64())
    })?;
    for (number, worker) in workers.iter().enumerate() {
        let lines = fs::read_to_string(lines_of(batch, number)).unwrap_or_default();
        if lines != batch.lines(&worker.files) {
            return Err(format!("hov judged otherwise than expected:\n{lines}"));
        }
    }
    Ok(FILES as f64 / seconds)
}

/// Where the lines of a worker go.
fn lines_of(batch: &Batch, worker: usize) -> PathBuf {
    batch.folder().join(format!("lines-{worker}"))
}

fn run(
    hov: &Path,
    batch: &Batch,
    number: usize,
    worker: &Worker,
    way: Way,
    ready: &Barrier,
) -> Result<(), String> {
    // Whatever comes of them, the others wait for this worker.
    let pinned = pin_this_thread(&worker.cores);
    let lines = File::create(lines_of(batch, number));
    ready.wait();
    pinned?;
    let lines = lines.map_err(|error| format!("no file for the lines: {error}"))?;
    let names: Vec<&OsStr> = worker.files.iter().map(|&file| batch.name(file)).collect();
    match way {
        Way::OneProcess => judge(hov, batch, &names, &lines),
        Way::ProcessEach => names
            .iter()
            .try_for_each(|&name| judge(hov, batch, &[name], &lines)),
    }
}

/// One process, for so many files. It has to accept all of them.
fn judge(hov: &Path, batch: &Batch, names: &[&OsStr], lines: &File) -> Result<(), String> {
    let not_run = |error: io::Error| format!("{} can't be run: {error}", hov.display());
    let status = Command::new(hov)
        .arg("judge")
        .args(names)
        .current_dir(batch.folder())
        .stdin(Stdio::null())
        .stdout(lines.try_clone().map_err(not_run)?)
        .status()
        .map_err(not_run)?;
    match status.success() {
        true => Ok(()),
        false => Err(format!("hov judge ended with {status}")),
    }
}
