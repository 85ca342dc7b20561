//! The files of a batch, and the lines that `hov judge` has to print for them.

use differential::bundles::SAMPLE_A;
use differential::limits::{Size, LARGEST, MIDDLE};
use differential::rng::Rng;
use std::ffi::OsStr;
use std::fmt::Write;
use std::path::{Path, PathBuf};
use std::{env, fs, io, process};

/// How many files there are.
pub const FILES: usize = 1_000;

/// The sizes besides that of sample A, each for as many files, by how often event 0 is
/// repeated. Those of [`MIDDLE`] and of [`LARGEST`] are among them.
const SIZES: [usize; 9] = [3, 8, 15, 25, MIDDLE.zeros, 70, 110, 170, LARGEST.zeros];

/// How many different bundles there are of a size.
const DIFFERENT: usize = 10;

/// The files, in a folder that is there as long as this is.
pub struct Batch {
    folder: PathBuf,
    names: Vec<String>,
    lines: Vec<String>,
}

impl Batch {
    /// Writes the files. They are the same in every run.
    pub fn write() -> io::Result<Self> {
        let folder = env::temp_dir().join(format!("hov-bench-{}", process::id()));
        fs::create_dir(&folder)?;
        // From here on the folder is removed, whatever happens.
        let mut batch = Self {
            folder,
            names: Vec::new(),
            lines: Vec::new(),
        };
        let files = different_files();
        for number in 0..FILES {
            let (file, verdict) = &files[number % files.len()];
            let name = format!("{number:04}.sealed");
            fs::write(batch.folder.join(&name), file)?;
            batch.lines.push(format!("{verdict} {name}"));
            batch.names.push(name);
        }
        Ok(batch)
    }

    pub fn folder(&self) -> &Path {
        &self.folder
    }

    /// The name of a file in the folder.
    pub fn name(&self, file: usize) -> &OsStr {
        OsStr::new(&self.names[file])
    }

    /// What is printed for these files.
    pub fn lines(&self, files: &[usize]) -> String {
        files.iter().fold(String::new(), |mut lines, &file| {
            let _ = writeln!(lines, "{}", self.lines[file]);
            lines
        })
    }
}

impl Drop for Batch {
    fn drop(&mut self) {
        if let Err(error) = fs::remove_dir_all(&self.folder) {
            eprintln!("{} is left: {error}", self.folder.display());
        }
    }
}

/// The different files with their verdicts. Neighbours differ in size, and so do those that
/// are two apart, so that each half of the batch has files of all sizes.
fn different_files() -> Vec<(Vec<u8>, String)> {
    let mut rng = Rng::new(0);
    let mut files = Vec::new();
    for _ in 0..DIFFERENT {
        files.push((sealed(&SAMPLE_A), "accepted 5 4 5 1".into()));
        for zeros in SIZES {
            let certified = size(zeros).certified(&mut rng);
            let counts = certified.counts;
            let verdict = format!(
                "accepted {} {} {} {}",
                counts.rows, counts.allowed, counts.by_place, counts.by_weights
            );
            files.push((sealed(&certified.bundle.bytes()), verdict));
        }
    }
    rng.shuffled(&files)
}

fn sealed(bundle: &[u8]) -> Vec<u8> {
    hovmekhar::seal_vec(bundle).expect("the bundle has an allowed length")
}

/// [`MIDDLE`], [`LARGEST`], or a size in proportion to the latter.
fn size(zeros: usize) -> Size {
    let part = |of: usize| of * zeros / LARGEST.zeros;
    match zeros {
        _ if zeros == MIDDLE.zeros => MIDDLE,
        _ if zeros == LARGEST.zeros => LARGEST,
        _ => Size {
            n: 2 + part(10),
            zeros,
            words: 2 + zeros,
            events: 2 + 4 * zeros,
            places: 3 + part(61),
            terms: (zeros - 1) * (2 + part(40)),
        },
    }
}
