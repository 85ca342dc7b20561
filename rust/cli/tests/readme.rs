//! What README.md and samples/README.md show is what `judge` and `hov` do.

mod support;

use differential::c_programs::root;
use differential::{program, samples};
use std::path::Path;
use std::process::Command;
use std::{env, fs};
use support::{hov, hov_with};

/// A command of a document, and what it is said to print.
struct Shown {
    command: String,
    printed: String,
}

/// The commands are indented lines that begin with `$`; the indented lines that
/// follow one are what it prints, with empty lines between them.
fn shown(document: &str) -> Vec<Shown> {
    let mut all: Vec<Shown> = Vec::new();
    // Whether a command stands before, and how many empty lines behind its last.
    let mut inside = false;
    let mut empty = 0;
    for line in document.lines() {
        let text = line.strip_prefix("    ");
        if let Some(command) = text.and_then(|text| text.strip_prefix("$ ")) {
            all.push(Shown {
                command: command.into(),
                printed: String::new(),
            });
            (inside, empty) = (true, 0);
        } else if let (Some(text), true) = (text, inside) {
            let last = all.last_mut().expect("a command stands before");
            last.printed += &"\n".repeat(empty);
            last.printed += &format!("{text}\n");
            empty = 0;
        } else {
            inside = inside && line.is_empty();
            empty += 1;
        }
    }
    all
}

/// Each command of the README, run in a shell at the root of the repository with
/// `hov` among the commands, prints to standard output what the README says.
#[test]
fn commands() {
    let readme = fs::read_to_string(root().join("README.md")).expect("README.md");
    let commands = shown(&readme);
    assert!(commands.len() >= 16, "{} commands", commands.len());
    for used in [
        "hov judge ",
        "hov screen ",
        "hov reach ",
        "hov replay ",
        "hov show ",
        "hov seal ",
        "hov unseal ",
        "hov convert ",
        "examples/may_run.sh ",
        "crates/judge/out/judge ",
    ] {
        let shows = |shown: &Shown| shown.command.contains(used);
        assert!(commands.iter().any(shows), "no command shows {used}");
    }
    let hov = Path::new(env!("CARGO_BIN_EXE_hov"));
    let mut path = hov.parent().expect("a directory").as_os_str().to_owned();
    path.push(":");
    path.push(env::var_os("PATH").unwrap_or_default());
    for Shown { command, printed } in commands {
        let done = Command::new("sh")
            .args(["-c", &command])
            .env("PATH", &path)
            .current_dir(root())
            .output()
            .expect("there is a shell");
        let output = String::from_utf8(done.stdout).expect("commands print text");
        assert_eq!(output, printed, "{command}");
    }
}

/// What stands between ticks in a cell of a table.
fn between_ticks(cell: &str) -> &str {
    let inner = cell
        .strip_prefix('`')
        .and_then(|cell| cell.strip_suffix('`'));
    inner.unwrap_or_else(|| panic!("no ticks: {cell}"))
}

/// What samples/README.md says of each file: the line of `judge`, how many bytes
/// `hov unseal` writes, and the verdict at the start of `hov screen`'s line.
#[test]
fn sample_files() {
    let table = fs::read_to_string(root().join("samples/README.md")).expect("samples/README.md");
    for sample in samples::all() {
        let row = table
            .lines()
            .find(|line| line.starts_with(&format!("| `{}` |", sample.name)))
            .unwrap_or_else(|| panic!("{} is not described", sample.name));
        let cells: Vec<&str> = row.split('|').map(str::trim).collect();
        let [_, _, _, judged, unsealed, screened, _] = cells[..] else {
            panic!("{row}");
        };
        let line = format!("{}\n", between_ticks(judged));
        assert_eq!(program::run(&sample.file).output, line, "{row}");
        let (status, bundle, _) = hov_with(&["unseal", "-", "-"], &sample.file);
        let written = (status == 0).then(|| bundle.len().to_string());
        assert_eq!(written.as_deref().unwrap_or("none"), unsealed, "{row}");
        let name = format!("samples/{}", sample.name);
        let line = hov(&["screen", &name, "0"]).output;
        let verdict = line.split(&format!(" {name}")).next().unwrap_or_default();
        let verdict = verdict.split(':').next().map(str::trim_end);
        assert_eq!(verdict, Some(between_ticks(screened)), "{row}");
    }
}
