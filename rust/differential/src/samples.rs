//! The files in `samples/`, beside the Rust workspace.
//!
//! `cargo run -p differential --example write_samples` writes them.

use crate::bundles::{unbalanced, SAMPLE_A, SAMPLE_E, SAMPLE_F, SAMPLE_LONGER, SAMPLE_NEW};
use crate::files::{build, BLOCK};
use crate::limits::MIDDLE;
use crate::rng::Rng;
use std::path::{Path, PathBuf};

/// A file, and the line that the program prints for it.
pub struct Sample {
    /// The name of the file.
    pub name: &'static str,
    /// The bytes of the file.
    pub file: Vec<u8>,
    /// The line, without its end.
    pub line: &'static str,
}

/// All of them.
pub fn all() -> Vec<Sample> {
    let several = MIDDLE.certified(&mut Rng::new(0)).bundle.bytes();
    let mut shuffled = build(&several);
    shuffled[BLOCK..3 * BLOCK].rotate_left(BLOCK);
    let mut damaged = build(&SAMPLE_A);
    damaged[4] ^= 1;
    let joined = build(&SAMPLE_A).repeat(2);
    [
        ("a.sealed", build(&SAMPLE_A), "accepted 5 4 5 1"),
        ("e.sealed", build(&SAMPLE_E), "accepted 1 0 1 0"),
        ("f.sealed", build(&SAMPLE_F), "refused 6 3"),
        ("longer.sealed", build(&SAMPLE_LONGER), "accepted 7 6 7 1"),
        ("several.sealed", build(&several), "accepted 43 42 177 39"),
        ("sales.sealed", build(&SAMPLE_NEW), "accepted 4 3 7 2"),
        ("unbalanced.sealed", build(&unbalanced()), "refused 20 1"),
        ("damaged.sealed", damaged, "refused 2 0"),
        ("shuffled.sealed", shuffled, "refused 17 1"),
        ("joined.sealed", joined, "refused 18 0"),
    ]
    .into_iter()
    .map(|(name, file, line)| Sample { name, file, line })
    .collect()
}

/// Where the files are.
pub fn directory() -> PathBuf {
    Path::new(env!("CARGO_MANIFEST_DIR")).join("../../samples")
}
