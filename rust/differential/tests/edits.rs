//! The wrong programs of `crates/*/must-fail`: each says which mistake it is, and each
//! public call has two or more in its own body. That they are refused, the gate tries.

use differential::c_programs::root;
use std::fs;
use std::path::{Path, PathBuf};

/// The public calls: the crate, the file in its `src`, and the function.
const CALLS: [(&str, &str, &str); 32] = [
    ("block", "lib.rt", "open"),
    ("sealing", "lib.rt", "seal"),
    ("logs", "lib.rt", "fresh"),
    ("logs", "lib.rt", "take"),
    ("judging", "lib.rt", "judge"),
    ("pruning", "lib.rt", "prune"),
    ("editions", "lib.rt", "to_new"),
    ("editions", "lib.rt", "to_old"),
    ("screening", "lib.rt", "screen"),
    ("screening", "lib.rt", "screen_joined"),
    ("search", "lib.rt", "reach"),
    ("engine", "lib.rt", "start"),
    ("engine", "lib.rt", "step"),
    ("engine", "lib.rt", "replace"),
    ("files", "lib.rt", "run"),
    ("files", "lib.rt", "run_both"),
    ("judge", "main.rt", "judge_file"),
    ("judge", "main.rt", "answer"),
    ("abi", "hov_block.rt", "hov_open"),
    ("abi", "hov_block.rt", "hov_seal"),
    ("abi", "hov_logs.rt", "hov_fresh"),
    ("abi", "hov_logs.rt", "hov_take"),
    ("abi", "hov_judging.rt", "hov_judge"),
    ("abi", "hov_pruning.rt", "hov_prune"),
    ("abi", "hov_editions.rt", "hov_to_new"),
    ("abi", "hov_editions.rt", "hov_to_old"),
    ("abi", "hov_screening.rt", "hov_screen"),
    ("abi", "hov_screening.rt", "hov_screen_joined"),
    ("abi", "hov_search.rt", "hov_reach"),
    ("abi", "hov_engine.rt", "hov_start"),
    ("abi", "hov_engine.rt", "hov_step"),
    ("abi", "hov_engine.rt", "hov_replace"),
];

/// The paths in a directory, or none where there is no such directory.
fn paths_in(directory: &Path) -> Vec<PathBuf> {
    let entries = fs::read_dir(directory).into_iter().flatten();
    entries
        .map(|entry| entry.expect("an entry").path())
        .collect()
}

fn text(path: &Path) -> String {
    fs::read_to_string(path).unwrap_or_else(|error| panic!("{}: {error}", path.display()))
}

/// The edits of a crate.
fn edits(name: &str) -> Vec<String> {
    let paths = paths_in(&root().join("crates").join(name).join("must-fail"));
    paths.iter().map(|path| text(path)).collect()
}

/// The texts of a file that an edit replaces.
fn replaced<'e>(edit: &'e str, file: &str) -> Vec<&'e str> {
    let mut of_file = false;
    let mut all = Vec::new();
    for line in edit.lines() {
        if let Some(path) = line.strip_prefix("file:") {
            of_file = path.trim() == file;
        } else if let Some(old) = line.strip_prefix("old:") {
            all.extend(of_file.then(|| old.trim()));
        }
    }
    all
}

/// The body of a function: from the brace in a line of its own behind the contract to the
/// one that closes it, both as far in as the function.
fn body(source: &str, function: &str) -> Option<String> {
    let starts = [format!("fn {function}("), format!("fn {function}<")];
    let is_start = |line: &str| starts.iter().any(|start| line.contains(start.as_str()));
    let mut lines = source.lines().skip_while(|line| !is_start(line));
    let first = lines.next()?;
    let indent = &first[..first.len() - first.trim_start().len()];
    let (opens, closes) = (format!("{indent}{{"), format!("{indent}}}"));
    let inside = lines.skip_while(|line| *line != opens);
    let inside: Vec<&str> = inside.take_while(|line| *line != closes).collect();
    (!inside.is_empty()).then(|| inside.join("\n"))
}

#[test]
fn two_in_the_body_of_each_call() {
    for (name, file, function) in CALLS {
        let path = root().join("crates").join(name).join("src").join(file);
        let body = body(&text(&path), function).expect("the function has a body");
        let file = format!("src/{file}");
        let is_inside = |edit: &&String| {
            let old = replaced(edit, &file);
            old.iter().any(|old| body.contains(old))
        };
        let count = edits(name).iter().filter(is_inside).count();
        assert!(count >= 2, "{name}::{function} has {count} in its body");
    }
}

/// The list has each call that C has.
#[test]
fn every_exported_call() {
    let mut exported = 0;
    for path in paths_in(&root().join("crates/abi/src")) {
        for line in text(&path).lines() {
            if let Some((_, call)) = line.split_once("extern \"C\" fn ") {
                let (call, _) = call.split_once('(').expect("parameters");
                let is_listed = CALLS.iter().any(|(_, _, function)| *function == call);
                assert!(is_listed, "{call} is not in the list");
                exported += 1;
            }
        }
    }
    let listed = CALLS.iter().filter(|(name, _, _)| *name == "abi");
    assert_eq!(exported, listed.count());
}

/// The first line of an edit is a sentence on the mistake.
#[test]
fn each_says_its_mistake() {
    let mut count = 0;
    for directory in paths_in(&root().join("crates")) {
        for path in paths_in(&directory.join("must-fail")) {
            let edit = text(&path);
            let first = edit.lines().next().and_then(|line| line.strip_prefix("# "));
            let is_sentence = first.is_some_and(|line| line.len() > 10);
            assert!(is_sentence, "{}", path.display());
            count += 1;
        }
    }
    assert!(count > 100, "{count} edits");
}
