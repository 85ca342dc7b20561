//! The header and the static library, from C.

use differential::c_programs::{include_directory, run_test};
use hovmekhar::{Kind, Refusal};
use std::fs;
use std::path::Path;

/// What a program of `tests/c` prints.
fn run(name: &str) -> String {
    run_test(name, Path::new(env!("CARGO_TARGET_TMPDIR")))
}

#[test]
fn round_trip() {
    assert_eq!(
        run("roundtrip"),
        "sealed 600 bytes: 0, 1024\n\
         opened: 0, 600, equal\n\
         altered: 2, 1, output as it was\n\
         another number: 17, 1, output as it was\n\
         unused byte: 18, 1, output as it was\n\
         short: 3, 600, output as it was\n\
         empty: 1, 0\n\
         nothing to seal: 4, 0\n"
    );
}

#[test]
fn log_table() {
    assert_eq!(
        run("logs"),
        "fresh: 0, 4 1 0\n\
         first word: 0, 4 4 3\n\
         second word: 0, 4 6 6\n\
         counts 0 0 0 0, allowed 0 1, traffic 2\n\
         counts 1 0 0 0, allowed 1, traffic 1\n\
         counts 1 1 0 0, allowed 2 3, traffic 2\n\
         counts 1 1 1 0, allowed, traffic 1\n\
         counts 0 1 0 0, allowed 0, traffic 1\n\
         counts 1 1 0 1, allowed, traffic 1\n\
         short table: 5, 3584, table as it was\n\
         no rows: 16, 0, table as it was\n\
         too many events: 8, 0, table as it was\n\
         wrong event: 7, 1, table as it was\n\
         too many rows: 9, 0, table as it was\n\
         fresh with 13 events: 16, 0\n"
    );
}

#[test]
fn judging() {
    assert_eq!(
        run("judge"),
        "accepted: 0, 5 4 5 1, table with rows\n\
         counts 0 0, mask 3, traffic 2\n\
         counts 0 1, mask 0, traffic 1\n\
         counts 1 0, mask 1, traffic 1\n\
         counts 2 0, mask 2, traffic 1\n\
         counts 2 1, mask 0, traffic 1\n\
         empty: 4, 0 7 7 7, table as it was\n\
         short table: 5, 3584 7 7 7, table as it was\n\
         cut: 6, 52 7 7 7, table zero\n\
         k = 0: 7, 4 7 7 7, table zero\n\
         too many events: 8, 1026 7 7 7, table zero\n\
         too many rows: 9, 258 7 7 7, table zero\n\
         place does not fit: 10, 0 7 7 7, table zero\n\
         place permits: 11, 0 7 7 7, table zero\n\
         no terms: 12, 0 7 7 7, table zero\n\
         a byte more: 13, 11 7 7 7, table zero\n"
    );
}

#[test]
fn pruning() {
    assert_eq!(
        run("prune"),
        "two idle: 0, 13 7 7 7, output 1 1 1 0 1 1 0 0 0 1 0 0 0, table with rows\n\
         again: 0, 13 7 7 7, output 1 1 1 0 1 1 0 0 0 1 0 0 0, table with rows\n\
         exact output: 0, 13 7 7 7, output 1 1 1 0 1 1 0 0 0 1 0 0 0, table with rows\n\
         short output: 3, 13 7 7 7, output as it was, table with rows\n\
         no output: 3, 13 7 7 7, output as it was, table with rows\n\
         empty: 4, 0 7 7 7, output as it was, table as it was\n\
         short table: 5, 3584 7 7 7, output as it was, table as it was\n\
         cut: 6, 24 7 7 7, output as it was, table zero\n\
         too many events: 8, 1026 7 7 7, output as it was, table zero\n\
         too many rows: 9, 258 7 7 7, output as it was, table zero\n\
         no terms: 12, 0 7 7 7, output as it was, table zero\n\
         a byte more: 13, 25 7 7 7, output as it was, table zero\n\
         no such place: 7, 24 7 7 7, output as it was, table zero\n\
         place permits: 11, 0 7 7 7, output as it was, table zero\n\
         place does not fit: 10, 0 7 7 7, output as it was, table zero\n"
    );
}

#[test]
fn conversion() {
    assert_eq!(
        run("convert"),
        "old\n\
         to new: 0, 15 7 7 7, output 129 2 0 0 0 0 1 0 0 0 0 1 0 0 0, table with rows\n\
         to old: 0, 13 7 7 7, output 1 2 0 0 1 0 0 0 0 1 0 0 0, table with rows\n\
         new\n\
         to new: 0, 15 7 7 7, output 129 2 0 0 0 0 1 0 0 0 0 1 0 0 0, table with rows\n\
         to old: 0, 13 7 7 7, output 1 2 0 0 1 0 0 0 0 1 0 0 0, table with rows\n\
         exact output\n\
         to new: 0, 15 7 7 7, output 129 2 0 0 0 0 1 0 0 0 0 1 0 0 0, table with rows\n\
         to old: 0, 13 7 7 7, output 1 2 0 0 1 0 0 0 0 1 0 0 0, table with rows\n\
         short output\n\
         to new: 3, 15 7 7 7, output as it was, table with rows\n\
         to old: 3, 13 7 7 7, output as it was, table with rows\n\
         completed\n\
         to new: 0, 15 7 7 7, output 129 2 0 0 0 1 1 0 0 0 0 1 0 0 0, table with rows\n\
         to old: 21, 1 7 7 7, output as it was, table with rows\n\
         empty\n\
         to new: 4, 0 7 7 7, output as it was, table as it was\n\
         to old: 4, 0 7 7 7, output as it was, table as it was\n\
         short table\n\
         to new: 5, 3584 7 7 7, output as it was, table as it was\n\
         to old: 5, 3584 7 7 7, output as it was, table as it was\n\
         cut\n\
         to new: 6, 12 7 7 7, output as it was, table zero\n\
         to old: 6, 12 7 7 7, output as it was, table zero\n\
         too many events\n\
         to new: 8, 1026 7 7 7, output as it was, table zero\n\
         to old: 8, 1026 7 7 7, output as it was, table zero\n\
         too many rows\n\
         to new: 9, 258 7 7 7, output as it was, table zero\n\
         to old: 9, 258 7 7 7, output as it was, table zero\n\
         no terms\n\
         to new: 12, 0 7 7 7, output as it was, table zero\n\
         to old: 12, 0 7 7 7, output as it was, table zero\n\
         a byte more\n\
         to new: 13, 13 7 7 7, output as it was, table zero\n\
         to old: 13, 13 7 7 7, output as it was, table zero\n\
         no such place\n\
         to new: 7, 12 7 7 7, output as it was, table zero\n\
         to old: 7, 12 7 7 7, output as it was, table zero\n"
    );
}

#[test]
fn screening() {
    assert_eq!(
        run("screen"),
        "0 1: permitted 0, 7 7 7 7\n\
         1 0: stopped 256, 1 0 1 7\n\
         0 0 0: stopped 256, 2 1 1 7\n\
         most tokens missing: stopped 256, 1 1 65535 7\n\
         512 tokens missing: stopped 256, 2 0 512 7\n\
         no event: permitted 0, 7 7 7 7\n\
         a word of the bundle: permitted 0, 7 7 7 7\n\
         empty: refused 4, 0 7 7 7\n\
         cut: refused 6, 27 7 7 7\n\
         n = 0: refused 7, 0 7 7 7\n\
         too many events: refused 8, 1026 7 7 7\n\
         long word: refused 14, 65535 7 7 7\n\
         longest word: stopped 256, 2 1 1 7\n\
         wrong event: refused 15, 2 7 7 7\n\
         joined: 0 1: permitted 0, 7 7 7 7\n\
         joined, first: 0 0 0: stopped 256, 2 1 1 7\n\
         joined, second: 0 1: stopped 256, 1 3 65535 7\n\
         joined to itself: 1 0: stopped 256, 1 0 1 7\n\
         joined, first empty: refused 4, 0 7 7 7\n\
         joined, second cut: refused 6, 27 7 7 7\n\
         joined, n = 0: refused 7, 0 7 7 7\n\
         joined, too many events: refused 8, 1026 7 7 7\n\
         joined, long word: refused 14, 65535 7 7 7\n\
         joined, longest word: stopped 256, 2 1 1 7\n\
         joined, wrong event: refused 15, 2 7 7 7\n\
         joined, other events: refused 19, 0 7 7 7\n"
    );
}

#[test]
fn pages_around_the_buffers_are_not_touched() {
    assert_eq!(
        run("pages"),
        "1792 calls on files\n\
         5100 calls on tables\n\
         2196 judged\n\
         4046 screened\n"
    );
    assert_eq!(run("joined_pages"), "6240 screened on two nets\n");
    assert_eq!(run("long_pages"), "15360 long words screened\n");
    assert_eq!(run("rewrite_pages"), "17920 pruned\n37016 converted\n");
}

/// The texts of the refusals are those of the Rust crate, and so is the version.
#[test]
fn texts_and_version() {
    let version = env!("CARGO_PKG_VERSION");
    let mut expected = format!("{version} {version}\n");
    for number in 0..=260u32 {
        let kind = u8::try_from(number).ok().and_then(Kind::of);
        let text = kind.map_or("no refusal has this number", Kind::text);
        expected += &format!("{number} {text}\n");
    }
    assert_eq!(run("texts"), expected);
}

/// The header has the same numbers as the Rust crate.
#[test]
fn header_and_crate_agree() {
    let header =
        fs::read_to_string(include_directory().join("hovmekhar.h")).expect("the header is there");
    let words: Vec<&str> = header.split_whitespace().collect();
    let has = |sequence: &[&str]| words.windows(sequence.len()).any(|at| at == sequence);

    for (name, number) in [
        ("HOV_FILE_LENGTH", Refusal::FILE_LENGTH),
        ("HOV_BLOCK_SUMS", Refusal::BLOCK_SUMS),
        ("HOV_OUTPUT_SHORT", Refusal::OUTPUT_SHORT),
        ("HOV_BUNDLE_LENGTH", Refusal::BUNDLE_LENGTH),
        ("HOV_NUMBERS_SHORT", Refusal::NUMBERS_SHORT),
        ("HOV_BUNDLE_END", Refusal::BUNDLE_END),
        ("HOV_VALUE", Refusal::VALUE),
        ("HOV_EVENTS", Refusal::EVENTS),
        ("HOV_ROWS", Refusal::ROWS),
        ("HOV_PLACE_MISFIT", Refusal::PLACE_MISFIT),
        ("HOV_PLACE_PERMITS", Refusal::PLACE_PERMITS),
        ("HOV_WEIGHTS", Refusal::WEIGHTS),
        ("HOV_BYTES_FOLLOW", Refusal::BYTES_FOLLOW),
        ("HOV_WORD_LENGTH", Refusal::WORD_LENGTH),
        ("HOV_WORD_EVENT", Refusal::WORD_EVENT),
        ("HOV_STATE_RANGE", Refusal::STATE_RANGE),
        ("HOV_BLOCK_NUMBER", Refusal::BLOCK_NUMBER),
        ("HOV_BLOCK_USE", Refusal::BLOCK_USE),
        ("HOV_EVENT_COUNTS", Refusal::EVENT_COUNTS),
        ("HOV_PLACE_DISOBEYS", Refusal::PLACE_DISOBEYS),
        ("HOV_WORD_COMPLETED", Refusal::WORD_COMPLETED),
        ("HOV_REPLACED_EVENTS", Refusal::REPLACED_EVENTS),
    ] {
        assert!(
            has(&[name, "=", &format!("{number},")]),
            "{name} = {number}"
        );
    }
    // The last one of the enum, without a comma.
    assert!(has(&[
        "HOV_RUN_STOPPED",
        "=",
        &Refusal::RUN_STOPPED.to_string()
    ]));

    for (name, size) in [
        ("HOV_BLOCK_SIZE", hovmekhar::BLOCK_SIZE),
        ("HOV_CONTENTS_SIZE", hovmekhar::CONTENTS_SIZE),
        ("HOV_MAX_BLOCKS", hovmekhar::MAX_BLOCKS),
        ("HOV_MAX_FILE_SIZE", hovmekhar::MAX_FILE_SIZE),
        ("HOV_MAX_BUNDLE_SIZE", hovmekhar::MAX_BUNDLE_SIZE),
        ("HOV_MAX_EVENTS", hovmekhar::MAX_EVENTS),
        ("HOV_ROW_SIZE", hovmekhar::ROW_SIZE),
        ("HOV_MAX_ROWS", hovmekhar::MAX_ROWS),
        ("HOV_TABLE_SIZE", hovmekhar::TABLE_SIZE),
        ("HOV_MAX_LOG_EVENTS", hovmekhar::MAX_LOG_EVENTS),
        ("HOV_MAX_PLACES", hovmekhar::MAX_PLACES),
        ("HOV_MAX_TERMS", hovmekhar::MAX_TERMS),
        ("HOV_MAX_PAIRS", hovmekhar::MAX_PAIRS),
        ("HOV_NEW_EDITION", hovmekhar::NEW_EDITION.into()),
        ("HOV_MAX_WORD_EVENTS", hovmekhar::MAX_WORD_EVENTS),
        ("HOV_MAX_TOKENS", hovmekhar::MAX_TOKENS as usize),
        ("HOV_MAX_REACH_EVENTS", hovmekhar::MAX_REACH_EVENTS),
        ("HOV_OK", 0),
        ("HOV_STOPPED", hovmekhar::ffi::STOPPED as usize),
        ("HOV_NONE", hovmekhar::ffi::NONE as usize),
    ] {
        assert!(has(&["#define", name, &size.to_string()]), "{name} {size}");
    }
}
