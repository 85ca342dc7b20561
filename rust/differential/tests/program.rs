//! The program `judge`: what it prints for what it reads.

use differential::bundles::{SAMPLE_A, SAMPLE_E, SAMPLE_F, SAMPLE_G, SAMPLE_H};
use differential::faults::BlockFault;
use differential::files::build;
use differential::limits::{LARGEST, MOST_WORDS};
use differential::nets::small_certified;
use differential::program::{errors_when_full, path, run, run_in_pieces, run_with, MAX_FILE_SIZE};
use differential::rng::Rng;
use differential::run::Run;
use differential::samples;
use differential::vectors::{line, Cases};
use std::ffi::OsStr;
use std::fs::File;
use std::io::Seek;
use std::process::Stdio;

/// Runs the program with this standard input, in pieces of this many bytes, and
/// returns all that it printed.
fn printed(input: &[u8], piece: usize) -> String {
    run_in_pieces(input, piece).output
}

/// Checks that the program prints exactly this line.
fn expect(input: &[u8], line: &str) {
    assert_eq!(printed(input, input.len().max(1)), format!("{line}\n"));
}

#[test]
fn the_program_is_there() {
    path();
}

#[test]
fn sample_bundles() {
    for (bundle, line) in [
        (SAMPLE_A.as_slice(), "accepted 5 4 5 1"),
        (&SAMPLE_E, "accepted 1 0 1 0"),
        (&SAMPLE_F, "refused 6 3"),
        (&SAMPLE_G, "refused 12 0"),
        (&SAMPLE_H, "refused 7 4"),
    ] {
        expect(&build(bundle), line);
    }
}

#[test]
fn sample_files() {
    for sample in samples::all() {
        expect(&sample.file, sample.line);
    }
}

/// Nothing, and lengths around that of the longest file.
#[test]
fn lengths() {
    let mut rng = Rng::new(1);
    for (length, line) in [
        (0, "refused 1 0"),
        (1, "refused 1 0"),
        (511, "refused 1 0"),
        (512, "refused 17 0"),
        (513, "refused 1 0"),
        (MAX_FILE_SIZE - 512, "refused 17 0"),
        (MAX_FILE_SIZE - 1, "refused 1 0"),
        (MAX_FILE_SIZE, "refused 17 0"),
        (MAX_FILE_SIZE + 1, "refused 1 0"),
        (MAX_FILE_SIZE + 512, "refused 1 0"),
        (1_000_000, "refused 1 0"),
    ] {
        expect(&rng.bytes(length), line);
    }
}

/// A sound file of the largest size and a byte more, or a block.
#[test]
fn longer_than_the_longest_file() {
    let file = build(&LARGEST.certified(&mut Rng::new(1)).bundle.bytes());
    assert_eq!(file.len(), MAX_FILE_SIZE);
    expect(&file, "accepted 256 255 2565 252");
    expect(&[file.as_slice(), &[0]].concat(), "refused 1 0");
    expect(&[file.as_slice(), &[0; 512]].concat(), "refused 1 0");
    expect(&file[..MAX_FILE_SIZE - 1], "refused 1 0");
}

/// A read that fails is not the end of the file: a directory opens, but cannot be read.
#[test]
fn failed_read() {
    let directory = File::open(env!("CARGO_MANIFEST_DIR")).expect("the directory opens");
    let done = run_with(&[], directory.into(), Stdio::piped());
    assert_eq!(done.output, "refused 1 0\n");
    assert!(done.errors.starts_with("standard input: "), "{done:?}");
}

/// A line that was not written whole is told from one that was.
#[test]
fn failed_write() {
    for input in [build(&SAMPLE_A), build(&SAMPLE_F), vec![]] {
        assert_eq!(run(&input).errors, "");
        let errors = errors_when_full(&input);
        assert!(errors.starts_with("standard output: "), "{errors}");
        assert_eq!(errors.lines().count(), 1, "{errors}");
    }
}

/// It takes no arguments: one line of usage, no answer, and nothing is read. So a
/// file's name in place of `<` is not taken for an empty input, nor is the answer one
/// for another file.
#[test]
fn arguments() {
    let damaged = samples::directory().join("damaged.sealed");
    let damaged = damaged.to_str().expect("a name in text");
    for arguments in [
        [damaged].as_slice(),
        &["--help"],
        &[""],
        &["-"],
        &["a.sealed", "b.sealed"],
    ] {
        let words: Vec<&OsStr> = arguments.iter().map(OsStr::new).collect();
        let mut file = File::open(samples::directory().join("a.sealed")).expect("the sample");
        let input = file.try_clone().expect("a second handle");
        let done = run_with(&words, input.into(), Stdio::piped());
        assert_eq!(done.output, "", "{arguments:?}");
        assert_eq!(done.errors, "usage: judge < FILE\n", "{arguments:?}");
        assert_eq!(file.stream_position().ok(), Some(0), "{arguments:?}");
    }
}

/// The same file in pieces of every kind of size.
#[test]
fn pieces() {
    let sample = build(&SAMPLE_A);
    for piece in [1, 2, 100, 511, 512] {
        assert_eq!(printed(&sample, piece), "accepted 5 4 5 1\n");
    }
    let largest = build(&MOST_WORDS.certified(&mut Rng::new(2)).bundle.bytes());
    for piece in [1, 7, 512, 4_096, 65_535] {
        assert_eq!(printed(&largest, piece), "accepted 256 255 2565 252\n");
    }
    assert_eq!(printed(&vec![0; MAX_FILE_SIZE + 1], 1), "refused 1 0\n");
}

#[test]
fn generated_files() {
    let mut run = Run::start("generated_files");
    for case in 0..run.cases(100) {
        let certified = small_certified(&mut run.rng);
        let file = build(&certified.bundle.bytes());
        expect(&file, &line(Ok(certified.counts)));
        run.count(0);
        let fault = BlockFault::ALL[case % BlockFault::ALL.len()];
        let (file, refused) = fault.file(&mut run.rng);
        expect(&file, &line(Err(refused)));
        run.count(refused.number);
    }
    run.finish(&[(0, 100), (17, 25), (18, 20), (2, 20)]);
}

/// The answers of another implementation.
#[test]
fn cases_with_answers() {
    let cases = Cases::read(include_str!("data/12.txt"));
    assert_eq!(cases.of("judge").len(), 120);
    for case in cases.of("judge") {
        let [file] = case.arguments();
        expect(&file.bytes(), &case.answer);
    }
}
