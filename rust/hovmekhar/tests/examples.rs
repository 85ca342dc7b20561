//! The examples of the wrapper, on the sample files.

mod gate_cases;

use std::env;
use std::path::PathBuf;

/// An example of this crate, which `cargo test` builds beside the tests.
fn example(name: &str) -> PathBuf {
    let test = env::current_exe().expect("this test has a path");
    let profile = test.ancestors().nth(2).expect("it lies in deps/");
    profile.join("examples").join(name)
}

/// The cases are those of the program in C, too.
#[test]
fn gate() {
    gate_cases::check(&example("gate"));
}
