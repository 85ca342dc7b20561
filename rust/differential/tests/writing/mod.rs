//! The sample writer for modellers, `examples/write_bundle.py`, run as a person runs it.

use differential::c_programs::root;
use hovmekhar::{Judged, Tally, NEW_EDITION};
use reference::log_rows;
use std::fs;
use std::ops::Deref;
use std::path::{Path, PathBuf};
use std::process::{self, Command, Output};

/// Whether there is a Python that the writer runs on. Says so where there is none.
pub fn has_python() -> bool {
    let version = Command::new("python3")
        .args(["-c", "import sys; sys.exit(sys.version_info < (3, 9))"])
        .status();
    let there = version.is_ok_and(|status| status.success());
    if !there {
        println!("skipped: there is no python3 of version 3.9 or later");
    }
    there
}

/// A directory of this run of a test alone, which goes with it.
pub struct Scratch(PathBuf);

impl Scratch {
    /// A new one.
    pub fn new(name: &str) -> Self {
        let name = format!("{name}_{}", process::id());
        let directory = Path::new(env!("CARGO_TARGET_TMPDIR")).join(name);
        fs::create_dir(&directory).expect("a new directory");
        Self(directory)
    }
}

impl Deref for Scratch {
    type Target = Path;

    fn deref(&self) -> &Path {
        &self.0
    }
}

impl Drop for Scratch {
    fn drop(&mut self) {
        // What is left of it disturbs nobody.
        let _ = fs::remove_dir_all(&self.0);
    }
}

/// How many files a directory has.
pub fn files_in(directory: &Path) -> usize {
    fs::read_dir(directory).expect("a directory").count()
}

/// Runs the writer.
pub fn run_writer<A: AsRef<str>>(out: &Path, arguments: &[A]) -> Output {
    Command::new("python3")
        .arg(root().join("examples/write_bundle.py"))
        .arg(out)
        .args(arguments.iter().map(AsRef::as_ref))
        .output()
        .expect("python3 runs")
}

/// The event count and the words, as the writer takes them; where a mark is set, the word is
/// completed.
pub fn arguments(n: usize, words: &[Vec<u8>], marks: &[bool]) -> Vec<String> {
    let events = |word: &Vec<u8>| word.iter().map(u8::to_string).collect::<Vec<_>>();
    let words = words.iter().enumerate().map(|(number, word)| {
        let is_completed = marks.get(number) == Some(&true);
        events(word).join(",") + if is_completed { "." } else { "" }
    });
    [n.to_string()].into_iter().chain(words).collect()
}

/// Has a log without completed words written, and judged, as [`write_and_judge_marked`] does.
pub fn write_and_judge(directory: &Path, n: usize, words: &[Vec<u8>]) -> Tally {
    write_and_judge_marked(directory, n, words, &[])
}

/// Has a log written, and judged: it is accepted, its edition is the new one where a word is
/// completed, its words and marks are those of the log, and its counts are those that are
/// known and those that the writer told.
pub fn write_and_judge_marked(
    directory: &Path,
    n: usize,
    words: &[Vec<u8>],
    marks: &[bool],
) -> Tally {
    let log = format!("n = {n}, words {words:?}, marks {marks:?}");
    let out = directory.join("written.sealed");
    let done = run_writer(&out, &arguments(n, words, marks));
    let errors = String::from_utf8_lossy(&done.stderr);
    assert_eq!(done.status.code(), Some(0), "{log}: {errors}");
    assert!(errors.is_empty(), "{log}: {errors}");
    assert_eq!(files_in(directory), 1, "{log}: nothing else is left");

    let file = fs::read(&out).expect("the file is written");
    let Judged { bundle, tally, .. } =
        hovmekhar::judge_file_vec(&file).unwrap_or_else(|refusal| panic!("{log}: {refusal}"));
    let rows = log_rows(n, words);
    let allowed = rows.iter().flat_map(|row| &row.allowed).filter(|&&is| is);
    assert_eq!(tally.rows, rows.len(), "{log}");
    assert_eq!(tally.allowed, allowed.count(), "{log}");

    let is_new = marks.contains(&true);
    let first = if is_new { NEW_EDITION } else { 0 } + n as u8;
    let mut head = vec![first, words.len() as u8];
    for (number, word) in words.iter().enumerate() {
        head.push(word.len() as u8);
        if is_new {
            head.push(marks[number].into());
        }
        head.extend(word);
    }
    assert!(bundle.starts_with(&head), "{log}: other words");

    let line = format!(
        "rows {}, allowed steps {}, places {}, certificates of kind 0 {}, of kind 1 {}\n",
        tally.rows,
        tally.allowed,
        bundle[head.len()],
        tally.by_place,
        tally.by_weights
    );
    assert_eq!(String::from_utf8_lossy(&done.stdout), line, "{log}");
    tally
}
