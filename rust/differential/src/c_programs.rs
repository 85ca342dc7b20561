//! Programs in C, compiled with the header and linked with the static library.

use std::env;
use std::path::{Path, PathBuf};
use std::process::Command;

/// Options under which a program has to compile without a warning.
const STRICT: [&str; 5] = ["-Wall", "-Wextra", "-Werror", "-pedantic", "-O2"];

/// The static library that the tests link.
pub const ARCHIVE: &str = env!("HOVMEKHAR_ARCHIVE");

/// The root of the repository.
pub fn root() -> PathBuf {
    Path::new(env!("CARGO_MANIFEST_DIR")).join("../..")
}

/// The directory of the header.
pub fn include_directory() -> PathBuf {
    root().join("include")
}

/// The C compiler that also links Rust programs.
pub fn c_compiler() -> String {
    env::var("CC").unwrap_or_else(|_| "cc".into())
}

/// Whether there is a compiler of this name.
pub fn has_compiler(compiler: &str) -> bool {
    let version = Command::new(compiler).arg("--version").output();
    version.is_ok_and(|done| done.status.success())
}

/// Compiles a program of `tests/c` with the C compiler that also links Rust programs into a
/// directory, runs it, and returns what it printed.
///
/// # Panics
///
/// When it does not compile, or ends with another status than 0.
pub fn run_test(name: &str, directory: &Path) -> String {
    let source = Path::new(env!("CARGO_MANIFEST_DIR"))
        .join("tests/c")
        .join(name)
        .with_extension("c");
    let program = directory.join(name);
    compile(&c_compiler(), "c11", &source, &program);

    let done = Command::new(program).output().expect("the program runs");
    assert_eq!(done.status.code(), Some(0), "{name}");
    String::from_utf8(done.stdout).expect("the program prints text")
}

/// Compiles a program with this compiler as this language, `c11` or `c++17`, say.
///
/// # Panics
///
/// When it does not compile, or not without a warning.
pub fn compile(compiler: &str, standard: &str, source: &Path, program: &Path) {
    let language = if standard.starts_with("c++") {
        "c++"
    } else {
        "c"
    };
    let compiled = Command::new(compiler)
        .arg(format!("-std={standard}"))
        .args(STRICT)
        .arg("-I")
        .arg(include_directory())
        .args(["-x", language])
        .arg(source)
        // The archive is none.
        .args(["-x", "none"])
        .arg(ARCHIVE)
        .arg("-o")
        .arg(program)
        .output()
        .unwrap_or_else(|error| panic!("{compiler}: {error}"));
    assert!(
        compiled.status.success(),
        "{} does not compile with {compiler}: {}",
        source.display(),
        String::from_utf8_lossy(&compiled.stderr)
    );
}
