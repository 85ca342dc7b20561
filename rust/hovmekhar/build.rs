//! Links the static library: `libhovmekhar.a`, as it is installed, or `libabi.a`,
//! as `rt lib --cpu x86-64` in `crates/abi` writes it.
//!
//! It is taken from the directory that the environment variable
//! `HOVMEKHAR_LIB_DIR` names (an absolute path), else from `crates/abi/out`
//! beside the Rust workspace.

use std::ffi::OsString;
use std::path::{Path, PathBuf};
use std::{env, process};

const VARIABLE: &str = "HOVMEKHAR_LIB_DIR";

fn main() {
    println!("cargo::rerun-if-env-changed={VARIABLE}");
    let directory = directory(env::var_os(VARIABLE));
    let Some((name, archive)) = archive(&directory) else {
        println!(
            "cargo::error=The static library is missing in {}: build it with `rt lib --cpu x86-64` in crates/abi, \
             or set {VARIABLE} to the absolute path of the directory that holds \
             libhovmekhar.a or libabi.a.",
            directory.display()
        );
        process::exit(1);
    };
    println!("cargo::rerun-if-changed={}", archive.display());
    println!("cargo::rustc-link-search=native={}", directory.display());
    println!("cargo::rustc-link-lib=static={name}");
    // For the build scripts of crates that link the library into C programs.
    println!("cargo::metadata=ARCHIVE={}", archive.display());
}

/// The directory of the library, from the variable's value. An empty one counts as
/// unset.
pub fn directory(value: Option<OsString>) -> PathBuf {
    match value {
        Some(directory) if !directory.is_empty() => PathBuf::from(directory),
        _ => Path::new(env!("CARGO_MANIFEST_DIR")).join("../../crates/abi/out"),
    }
}

/// The library in a directory: the name to link it by, and its path.
pub fn archive(directory: &Path) -> Option<(&'static str, PathBuf)> {
    ["hovmekhar", "abi"]
        .map(|name| (name, directory.join(format!("lib{name}.a"))))
        .into_iter()
        .find(|(_, archive)| archive.is_file())
}
