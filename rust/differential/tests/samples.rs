//! The files in `samples/` are what the reference makes, and answers as they are
//! described.

use differential::files::{BLOCK, MAX_BUNDLE_SIZE};
use differential::judging::reference_verdict;
use differential::samples::{all, directory, Sample};
use differential::vectors::line;
use std::fs;

/// The line that the program prints for a file, by the reference.
fn reference_line(file: &[u8]) -> String {
    line(reference_verdict(file))
}

#[test]
fn files_are_up_to_date() {
    for sample in all() {
        let file = fs::read(directory().join(sample.name)).unwrap_or_default();
        assert!(
            file == sample.file,
            "samples/{} is missing or out of date: \
             run `cargo run -p differential --example write_samples`",
            sample.name
        );
    }
}

#[test]
fn files_are_answered_as_described() {
    let readme = fs::read_to_string(directory().join("README.md")).expect("samples/README.md");
    for Sample { name, file, line } in all() {
        assert_eq!(reference_line(&file), line, "{name}");
        let described = readme
            .lines()
            .any(|row| row.contains(&format!("`{name}`")) && row.contains(&format!("`{line}`")));
        assert!(described, "samples/README.md: {name}, {line}");
    }
}

/// Sealing the bundle of a sound file gives the file.
#[test]
fn files_are_sealed_bundles() {
    for Sample { name, file, .. } in all() {
        let mut bundle = vec![0; MAX_BUNDLE_SIZE];
        let opened = reference::open(&file, &mut bundle);
        let faulty = ["damaged.sealed", "shuffled.sealed", "joined.sealed"];
        assert_eq!(opened.is_err(), faulty.contains(&name), "{name}");
        if let Ok(length) = opened {
            let mut sealed = vec![0; file.len()];
            let sealed_len = reference::seal(&bundle[..length], &mut sealed);
            assert_eq!(sealed_len, Ok(file.len()), "{name}");
            assert!(sealed == file, "{name}");
            assert_eq!(name == "several.sealed", file.len() > BLOCK, "{name}");
        }
    }
}
