//! A batch of files, judged by `hov` all in one process, or in a process for each. The figures
//! are for reading; nothing is judged by them.

mod cores;
mod files;
mod workers;

use cores::allowed;
use files::{Batch, FILES};
use std::env;
use std::io;
use std::path::{Path, PathBuf};
use workers::{rate, Way, Worker};

/// Rounds for each figure; odd, so that there is a median.
const ROUNDS: usize = 3;

/// Times the batch with the program of this name, or with the `hov` beside this program.
/// Says so where it can't be timed.
pub fn print(hov: Option<PathBuf>) {
    println!();
    if let Err(problem) = try_print(hov) {
        println!("The batch is left out: {problem}");
    }
}

fn try_print(hov: Option<PathBuf>) -> Result<(), String> {
    let hov = find(hov)?;
    let cores = allowed().map_err(|error| format!("the cores are not known: {error}"))?;
    let failed = |error: io::Error| format!("the files can't be written: {error}");
    let batch = Batch::write().map_err(failed)?;
    let one = Worker::all(&[&cores[..1]]);
    let (two, shared) = match cores.get(..2) {
        Some(cores) => (
            Worker::all(&[&cores[..1], &cores[1..]]),
            Worker::all(&[cores]),
        ),
        None => (Vec::new(), Vec::new()),
    };
    let figure = |workers: &[Worker], way| match workers {
        [] => Ok("-".into()),
        workers => median_rate(&hov, &batch, workers, way).map(|rate| format!("{rate:.0}")),
    };

    println!("Files a second: the median of {ROUNDS} rounds with {FILES} files, all accepted, of");
    println!("bundles of 53 to 64,512 bytes. On two cores there are two workers at a time, each");
    println!("with half of the files and a core of its own; in the last line hov has both for");
    println!("its own threads.");
    println!("The program is {}.", hov.display());
    println!();
    println!("{:<52} {:>10} {:>10}", "batch", "one core", "two cores");
    for (name, way) in [
        ("hov judge, a process for each file", Way::ProcessEach),
        ("hov judge, one process on each core", Way::OneProcess),
    ] {
        println!(
            "{name:<52} {:>10} {:>10}",
            figure(&one, way)?,
            figure(&two, way)?
        );
    }
    let name = "hov judge, one process for all, its own threads";
    let shared = figure(&shared, Way::OneProcess)?;
    println!("{name:<52} {:>10} {shared:>10}", "-");
    Ok(())
}

/// The program, by an absolute path.
fn find(hov: Option<PathBuf>) -> Result<PathBuf, String> {
    let beside = || env::current_exe().map(|bench| bench.with_file_name("hov"));
    let hov = hov.map_or_else(beside, Ok);
    let hov = hov.map_err(|error| format!("this program does not know where it is: {error}"))?;
    hov.canonicalize().map_err(|_| {
        let built = "cargo build --release -p cli builds it, or name it as an argument";
        format!("there is no program {}; {built}", hov.display())
    })
}

fn median_rate(hov: &Path, batch: &Batch, workers: &[Worker], way: Way) -> Result<f64, String> {
    let mut rates = Vec::with_capacity(ROUNDS);
    for _ in 0..ROUNDS {
        rates.push(rate(hov, batch, workers, way)?);
    }
    rates.sort_by(f64::total_cmp);
    Ok(rates[ROUNDS / 2])
}
