//! What the documents say is what the library and the files have.

use differential::bundles::{SAMPLE_A, SAMPLE_A_NEW};
use differential::samples::directory;
use hovmekhar::Kind;
use std::collections::HashSet;
use std::fs;
use std::path::{Path, PathBuf};

fn root() -> PathBuf {
    Path::new(env!("CARGO_MANIFEST_DIR")).join("../..")
}

fn document(name: &str) -> String {
    fs::read_to_string(root().join(name)).unwrap_or_else(|error| panic!("{name}: {error}"))
}

/// The annotated bytes of case A, joined, are the bundle of `samples/a.sealed`, those of the
/// new edition that of `samples/sales.sealed`, and each row of a table stands at its offset.
#[test]
fn annotated_bytes() {
    let format = document("docs/FORMAT.md");
    let mut bundles: Vec<Vec<u8>> = Vec::new();
    for line in format.lines() {
        let cells: Vec<&str> = line.split('|').map(str::trim).collect();
        let [_, offset, shown, _, _] = cells[..] else {
            continue;
        };
        let (Ok(offset), Some(shown)) = (offset.parse::<usize>(), between_ticks(shown)) else {
            continue;
        };
        if offset == 0 {
            bundles.push(Vec::new());
        }
        let bytes = bundles.last_mut().expect("a table begins at 0");
        assert_eq!(offset, bytes.len(), "{line}");
        let numbers = shown.split(' ').map(|byte| byte.parse::<u8>());
        bytes.extend(numbers.map(|byte| byte.expect("a byte")));
    }
    for (sample, length) in [("a.sealed", 53), ("sales.sealed", 80)] {
        let file = fs::read(directory().join(sample)).expect("a sample");
        let bytes = bundles.remove(0);
        assert_eq!(bytes.len(), length, "{sample}");
        assert_eq!(file[4..4 + length], bytes, "{sample}");
    }
    assert!(bundles.is_empty(), "a further table of bytes");
}

/// The table of conversion has all bytes of case A in the new edition, each behind the one
/// before, and the offsets of those that stay in the old one.
#[test]
fn converted_bytes() {
    let format = document("docs/FORMAT.md");
    let (_, table) = format
        .split_once("| Offset | In the new edition |")
        .expect("the table");
    let rows = table.lines().skip(2).take_while(|line| !line.is_empty());
    let mut bytes = Vec::new();
    for row in rows {
        let cells: Vec<&str> = row.split('|').map(str::trim).collect();
        let [_, old, new, shown, _, _] = cells[..] else {
            panic!("{row}");
        };
        assert_eq!(new, bytes.len().to_string(), "{row}");
        let shown = between_ticks(shown).expect("bytes").split(' ');
        bytes.extend(shown.map(|byte| byte.parse::<u8>().expect("a byte")));
        let old: usize = old.parse().expect("an offset");
        let (first, after) = (
            bytes[new.parse::<usize>().expect("an offset")],
            SAMPLE_A[old],
        );
        assert_eq!(first % 128, after, "{row}");
    }
    assert_eq!(bytes, SAMPLE_A_NEW);
}

fn between_ticks(cell: &str) -> Option<&str> {
    cell.strip_prefix('`')?.strip_suffix('`')
}

/// The README's table of refusals has each number once, in order, with the texts
/// of the library.
#[test]
fn refusals_are_described() {
    let readme = document("README.md");
    let start = readme.find("### What a refusal means").expect("the table");
    let table = readme[start..]
        .lines()
        .skip_while(|line| !line.starts_with("| 1 |"))
        .take_while(|line| line.starts_with('|'));
    let mut kinds = Kind::ALL.iter();
    for line in table {
        let cells: Vec<&str> = line.split('|').map(str::trim).collect();
        let [_, number, means, _, to_do, _] = cells[..] else {
            panic!("{line}");
        };
        let kind = kinds.next().expect("no more rows than refusals");
        assert_eq!(number, kind.number().to_string(), "{line}");
        assert_eq!(means, kind.text(), "{line}");
        assert_eq!(to_do, kind.advice(), "{line}");
    }
    assert_eq!(kinds.next(), None, "each refusal has a row");
}

/// The changes begin with the version that the crates, the header and `hov` have.
#[test]
fn changes_begin_with_the_version() {
    let changes = document("CHANGELOG.md");
    let heading = changes.lines().find(|line| line.starts_with("## "));
    let version = heading.and_then(|line| line.strip_prefix("## ")?.split(':').next());
    assert_eq!(version, Some(env!("CARGO_PKG_VERSION")));
}

/// Each decision has its number, in order, and stands in the index by subject.
#[test]
fn decisions_are_indexed() {
    let decisions = document("docs/DECISIONS.md");
    let (index, points) = decisions.split_once("\n## ").expect("an index in front");
    let numbers: Vec<usize> = points
        .lines()
        .filter_map(|line| line.split_once(". **")?.0.parse().ok())
        .collect();
    assert!(numbers.iter().copied().eq(1..=numbers.len()), "{numbers:?}");
    let indexed: Vec<&str> = index
        .lines()
        .filter_map(|line| line.split('|').nth(2))
        .flat_map(|cell| cell.split(',').map(str::trim))
        .collect();
    for number in numbers {
        let number = number.to_string();
        assert!(indexed.contains(&number.as_str()), "{number}");
    }
}

/// The table of crates in CONTRIBUTING.md has each crate that is listed, and no other.
#[test]
fn crates_are_described() {
    let list = document("crates.txt");
    let mut listed: Vec<&str> = list
        .lines()
        .filter(|line| !line.starts_with('#'))
        .filter_map(|line| line.split_once(':')?.0.split_whitespace().next())
        .collect();
    let page = document("CONTRIBUTING.md");
    let (_, table) = page.split_once("| Crate | Holds |").expect("the table");
    let (table, _) = table.split_once("\n\n").expect("its end");
    let mut described: Vec<&str> = table
        .lines()
        .filter_map(|row| between_ticks(row.split('|').nth(1)?.trim()))
        .collect();
    listed.sort_unstable();
    described.sort_unstable();
    assert_eq!(described, listed);
}

/// The pages that name files.
const PAGES: [&str; 8] = [
    "README.md",
    "CONTRIBUTING.md",
    "samples/README.md",
    "docs/ASSURANCE.md",
    "docs/DECISIONS.md",
    "docs/FORMAT.md",
    "docs/LIBRARY.md",
    "docs/SPEED.md",
];

/// What stands between ticks in a page, line by line.
fn quoted(page: &str) -> Vec<&str> {
    let of_line = |line| str::split(line, '`').skip(1).step_by(2);
    page.lines().flat_map(of_line).collect()
}

/// Each file, folder and wrong program that a page names is there.
#[test]
fn named_files_are_there() {
    let folders = ["crates", "rust", "docs", "examples", "include", "samples"];
    let mut missing = Vec::new();
    for name in PAGES {
        let page = document(name);
        for quoted in quoted(&page) {
            let word = quoted.trim_end_matches('/');
            let Some((first, rest)) = word.split_once('/') else {
                continue;
            };
            let is_name = |byte: u8| byte.is_ascii_alphanumeric() || b"_.-/".contains(&byte);
            let is_built = word.contains("/target/") || word.contains("/out/");
            if !word.bytes().all(is_name) || word.contains("NAME") || is_built {
                continue;
            }
            let edit = format!("crates/{first}/must-fail/{rest}.edit");
            let there = if folders.contains(&first) {
                root().join(word).exists()
            } else if root().join("crates").join(first).exists() && !rest.contains(['.', '/']) {
                root().join(edit).exists()
            } else {
                true
            };
            if !there {
                missing.push(format!("{name}: {word}"));
            }
        }
    }
    assert!(missing.is_empty(), "{missing:#?}");
}

/// All words of the definitions, laws and functions.
fn words_of_crates() -> HashSet<String> {
    let mut words = HashSet::new();
    let mut folders = vec![root().join("crates")];
    while let Some(folder) = folders.pop() {
        for entry in fs::read_dir(&folder).expect("a folder") {
            let path = entry.expect("an entry").path();
            let extension = path.extension().and_then(|extension| extension.to_str());
            if path.is_dir() {
                // What rt builds there holds copies of sources.
                if !path.ends_with("out") {
                    folders.push(path);
                }
            } else if matches!(extension, Some("antt" | "rt")) {
                let text = fs::read_to_string(&path).expect("text");
                let ends = |c: char| c.is_whitespace() || "(){}[];:,.&<>\"`⌜⌝".contains(c);
                words.extend(text.split(ends).map(str::to_string));
            }
        }
    }
    words
}

/// Each theorem, definition and function that docs/ASSURANCE.md names is one.
#[test]
fn named_theorems_are_there() {
    let words = words_of_crates();
    let page = document("docs/ASSURANCE.md");
    let is_crate = |name: &str| root().join("crates").join(name).exists();
    let is_name = |c: char| c.is_alphanumeric() || "-_₁₂".contains(c);
    let unknown: Vec<&str> = quoted(&page)
        .into_iter()
        .filter(|quoted| quoted.chars().all(is_name) && !is_crate(quoted))
        .filter(|quoted| *quoted != "hov" && !words.contains(*quoted))
        .collect();
    assert!(unknown.is_empty(), "{unknown:?}");
}

/// Each page that another one links to is there, and has the heading.
#[test]
fn links_lead_somewhere() {
    for name in PAGES {
        let page = document(name);
        let here = root().join(name);
        for link in page.split("](").skip(1) {
            let target = link.split(')').next().expect("an end");
            let (path, heading) = target.split_once('#').unwrap_or((target, ""));
            let file = match path {
                "" => here.clone(),
                _ => here.parent().expect("a folder").join(path),
            };
            assert!(file.exists(), "{name}: {target}");
            if !heading.is_empty() {
                let text = fs::read_to_string(&file).expect("a page");
                let is_there = text
                    .lines()
                    .any(|line| anchor(line) == Some(heading.into()));
                assert!(is_there, "{name}: {target}");
            }
        }
    }
}

/// What a link to a heading has behind `#`.
fn anchor(line: &str) -> Option<String> {
    let heading = line.trim_start_matches('#').strip_prefix(' ')?;
    let kept = |c: &char| c.is_alphanumeric() || [' ', '-', '_'].contains(c);
    let kept: String = heading.to_lowercase().chars().filter(kept).collect();
    (line.starts_with('#')).then(|| kept.replace(' ', "-"))
}
