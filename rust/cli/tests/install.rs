//! `make install`, and what it installs.

mod support;

use differential::c_programs::{c_compiler, has_compiler, root, ARCHIVE};
use differential::samples;
use std::fs;
use std::os::unix::fs::PermissionsExt;
use std::path::Path;
use std::process::Command;
use support::directory;

/// Runs `make` with these arguments, for the archive and the tool that the tests
/// have. Nothing is built then.
fn make(arguments: &[String]) {
    let done = Command::new("make")
        .current_dir(root())
        .arg(format!("ARCHIVE={ARCHIVE}"))
        .arg(format!("HOV={}", env!("CARGO_BIN_EXE_hov")))
        .args(arguments)
        .output()
        .expect("make runs");
    let errors = String::from_utf8_lossy(&done.stderr);
    assert!(done.status.success(), "{arguments:?}: {errors}");
}

fn has_make() -> bool {
    let there = has_compiler("make");
    if !there {
        println!("skipped: there is no make");
    }
    there
}

/// All files below a directory with their modes.
fn files_below(directory: &Path) -> Vec<(String, u32)> {
    let mut found = Vec::new();
    for entry in fs::read_dir(directory).expect("a directory") {
        let path = entry.expect("an entry").path();
        let name = path
            .file_name()
            .expect("a name")
            .to_string_lossy()
            .to_string();
        if path.is_dir() {
            let below = files_below(&path);
            found.extend(
                below
                    .into_iter()
                    .map(|(file, mode)| (format!("{name}/{file}"), mode)),
            );
        } else {
            let mode = fs::metadata(&path)
                .expect("it is there")
                .permissions()
                .mode();
            found.push((name, mode & 0o777));
        }
    }
    found.sort();
    found
}

/// The files, their modes, and the prefix in the pkg-config file, which does not
/// have the directory that a package is built in.
#[test]
fn into_a_package() {
    if !has_make() {
        return;
    }
    let stage = directory("into_a_package");
    make(&[
        "install".into(),
        "PREFIX=/opt/hov".into(),
        format!("DESTDIR={}", stage.display()),
    ]);
    let expected = [
        ("opt/hov/bin/hov", 0o755),
        ("opt/hov/include/hovmekhar.h", 0o644),
        ("opt/hov/lib/libhovmekhar.a", 0o644),
        ("opt/hov/lib/pkgconfig/hovmekhar.pc", 0o644),
    ];
    let expected = expected.map(|(name, mode)| (name.to_string(), mode));
    assert_eq!(files_below(&stage), expected);
    let installed = stage.join("opt/hov");
    let same = |file: &str, source: &str| {
        let installed = fs::read(installed.join(file)).expect("it is installed");
        assert!(
            installed == fs::read(source).expect("it is there"),
            "{file}"
        );
    };
    same("lib/libhovmekhar.a", ARCHIVE);
    same("bin/hov", env!("CARGO_BIN_EXE_hov"));
    let text = fs::read_to_string(installed.join("lib/pkgconfig/hovmekhar.pc")).expect("text");
    let lines: Vec<&str> = text.lines().collect();
    assert!(lines.contains(&"prefix=/opt/hov"), "{text}");
    let version = format!("Version: {}", env!("CARGO_PKG_VERSION"));
    assert!(lines.contains(&version.as_str()), "{text}");
    assert!(!text.contains('@'), "{text}");
}

/// Without `hov`.
#[test]
fn library_alone() {
    if !has_make() {
        return;
    }
    let stage = directory("library_alone");
    make(&[
        "install-library".into(),
        format!("PREFIX={}", stage.display()),
    ]);
    let names: Vec<String> = files_below(&stage)
        .into_iter()
        .map(|(name, _)| name)
        .collect();
    let expected = [
        "include/hovmekhar.h",
        "lib/libhovmekhar.a",
        "lib/pkgconfig/hovmekhar.pc",
    ];
    assert_eq!(names, expected);
}

/// The example compiles with what `pkg-config` says, and runs.
#[test]
fn example_with_pkg_config() {
    if !has_make() {
        return;
    }
    if !has_compiler("pkg-config") {
        println!("skipped: there is no pkg-config");
        return;
    }
    let prefix = directory("example_with_pkg_config");
    make(&["install".into(), format!("PREFIX={}", prefix.display())]);
    let program = prefix.join("gate");
    let command = format!(
        "{} '{}' $(pkg-config --cflags --libs hovmekhar) -o '{}'",
        c_compiler(),
        root().join("examples/gate.c").display(),
        program.display()
    );
    let compiled = Command::new("sh")
        .args(["-c", &command])
        .env("PKG_CONFIG_PATH", prefix.join("lib/pkgconfig"))
        .output()
        .expect("there is a shell");
    let errors = String::from_utf8_lossy(&compiled.stderr);
    assert!(compiled.status.success(), "{command}: {errors}");
    let ran = Command::new(&program)
        .arg(samples::directory().join("a.sealed"))
        .args(["0", "1"])
        .output()
        .expect("the program runs");
    assert_eq!(ran.status.code(), Some(0));
    assert_eq!(ran.stdout, b"accepted 5 4 5 1\npermitted\n");
}
