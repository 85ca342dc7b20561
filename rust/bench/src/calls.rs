//! The calls that are timed, but for those of [`crate::rewriting`], [`crate::words`],
//! [`crate::reaching`] and [`crate::carrying`]. A further one is a further entry in
//! [`on_files`], [`on_logs`] or [`on_bundles`].

use differential::bundles::{SAMPLE_A, SAMPLE_NEW};
use differential::limits::{Size, LARGEST, MIDDLE};
use differential::rng::Rng;
use differential::sales::{Sales, LARGEST_NEW, MIDDLE_NEW};
use hovmekhar::{
    Summary, CONTENTS_SIZE, MAX_BLOCKS, MAX_FILE_SIZE, MAX_LOG_EVENTS, MAX_ROWS, TABLE_SIZE,
};
use std::hint::black_box;

/// The buffers of a call; both sides use the same.
pub struct Buffers<I, T> {
    pub input: I,
    pub output: Vec<T>,
}

/// One side of a comparison: makes the call once and returns what it answered,
/// or nothing where it refused.
pub type Side<I, T> = fn(&mut Buffers<I, T>) -> Option<usize>;

/// A line of the output.
pub struct Call<I, T> {
    pub name: &'static str,
    pub size: &'static str,
    pub prepare: fn() -> Buffers<I, T>,
    pub ours: Side<I, T>,
    pub reference: Side<I, T>,
}

/// Opening and sealing.
pub fn on_files() -> Vec<Call<Vec<u8>, u8>> {
    vec![
        Call {
            name: "open",
            size: "1 block",
            prepare: || buffers(file(1)),
            ours: open_ours,
            reference: open_reference,
        },
        Call {
            name: "open",
            size: "128 blocks",
            prepare: || buffers(file(MAX_BLOCKS)),
            ours: open_ours,
            reference: open_reference,
        },
        Call {
            name: "seal",
            size: "1 block",
            prepare: || buffers(bundle(1)),
            ours: seal_ours,
            reference: seal_reference,
        },
        Call {
            name: "seal",
            size: "128 blocks",
            prepare: || buffers(bundle(MAX_BLOCKS)),
            ours: seal_ours,
            reference: seal_reference,
        },
    ]
}

/// Whole logs: a fresh table, and then each word in turn.
pub fn on_logs() -> Vec<Call<Log, u16>> {
    vec![
        Call {
            name: "log",
            size: "3 words of 3 events, 7 rows",
            prepare: || with_table(small_log()),
            ours: log_ours,
            reference: log_reference,
        },
        Call {
            name: "log",
            size: "256 words of 4 events, 256 rows",
            prepare: || with_table(short_words()),
            ours: log_ours,
            reference: log_reference,
        },
        Call {
            name: "log",
            size: "8 words of 128 events, 256 rows",
            prepare: || with_table(long_words()),
            ours: log_ours,
            reference: log_reference,
        },
    ]
}

/// Judging of bundles that are accepted.
pub fn on_bundles() -> Vec<Call<Vec<u8>, u16>> {
    vec![
        Call {
            name: "judge",
            size: "53 bytes, 5 rows",
            prepare: || with_table(SAMPLE_A.to_vec()),
            ours: judge_ours,
            reference: judge_reference,
        },
        Call {
            name: "judge",
            size: "1,630 bytes, 43 rows",
            prepare: || with_table(bundle_of(MIDDLE)),
            ours: judge_ours,
            reference: judge_reference,
        },
        Call {
            name: "judge",
            size: "64,512 bytes, 256 rows",
            prepare: || with_table(bundle_of(LARGEST)),
            ours: judge_ours,
            reference: judge_reference,
        },
        Call {
            name: "judge",
            size: "80 bytes, 4 rows, new edition",
            prepare: || with_table(SAMPLE_NEW.to_vec()),
            ours: judge_ours,
            reference: judge_reference,
        },
        Call {
            name: "judge",
            size: "1,464 bytes, 42 rows, new edition",
            prepare: || with_table(new_bundle_of(MIDDLE_NEW)),
            ours: judge_ours,
            reference: judge_reference,
        },
        Call {
            name: "judge",
            size: "64,512 bytes, 256 rows, new edition",
            prepare: || with_table(new_bundle_of(LARGEST_NEW)),
            ours: judge_ours,
            reference: judge_reference,
        },
    ]
}

fn open_ours(buffers: &mut Buffers<Vec<u8>, u8>) -> Option<usize> {
    hovmekhar::open(black_box(&buffers.input), black_box(&mut buffers.output)).ok()
}

fn open_reference(buffers: &mut Buffers<Vec<u8>, u8>) -> Option<usize> {
    reference::open(black_box(&buffers.input), black_box(&mut buffers.output)).ok()
}

fn seal_ours(buffers: &mut Buffers<Vec<u8>, u8>) -> Option<usize> {
    hovmekhar::seal(black_box(&buffers.input), black_box(&mut buffers.output)).ok()
}

fn seal_reference(buffers: &mut Buffers<Vec<u8>, u8>) -> Option<usize> {
    reference::seal(black_box(&buffers.input), black_box(&mut buffers.output)).ok()
}

/// An input, and an output that is long enough for every call.
fn buffers(input: Vec<u8>) -> Buffers<Vec<u8>, u8> {
    Buffers {
        input,
        output: vec![0; MAX_FILE_SIZE],
    }
}

/// A bundle that fills this many blocks, without zeros or an obvious pattern.
fn bundle(blocks: usize) -> Vec<u8> {
    (0..blocks * CONTENTS_SIZE)
        .map(|i| (i * 167 % 251) as u8 + 1)
        .collect()
}

/// The sealed file of [`bundle`].
fn file(blocks: usize) -> Vec<u8> {
    hovmekhar::seal_vec(&bundle(blocks)).expect("the bundle has an allowed length")
}

/// The words of a log, and how many events there are.
pub struct Log {
    n: usize,
    words: Vec<Vec<u8>>,
}

fn log_ours(buffers: &mut Buffers<Log, u16>) -> Option<usize> {
    let table = buffers.output.as_mut_slice();
    let mut summary = Summary::fresh(buffers.input.n, black_box(&mut *table)).ok()?;
    for word in &buffers.input.words {
        summary = summary.take(black_box(word), black_box(&mut *table)).ok()?;
    }
    Some(summary.rows)
}

fn log_reference(buffers: &mut Buffers<Log, u16>) -> Option<usize> {
    let table = buffers.output.as_mut_slice();
    let mut summary = reference::fresh(buffers.input.n, black_box(&mut *table)).ok()?;
    for word in &buffers.input.words {
        summary = reference::take(summary, black_box(word), black_box(&mut *table)).ok()?;
    }
    Some(summary.rows)
}

/// An input, and a table that is long enough for every call.
fn with_table<I>(input: I) -> Buffers<I, u16> {
    Buffers {
        input,
        output: vec![0; TABLE_SIZE],
    }
}

/// A few short words.
fn small_log() -> Log {
    Log {
        n: 4,
        words: vec![vec![0, 1, 2], vec![1, 0, 3], vec![0, 2, 1]],
    }
}

/// As many words of four events as a log holds, with as many rows as a table
/// holds. Words that would need further rows are left out.
fn short_words() -> Log {
    let n = 7;
    let mut words = Vec::new();
    let mut table = vec![0; TABLE_SIZE];
    let mut summary = Summary::fresh(n, &mut table).expect("an allowed event count");
    // All words of four events, in an order without an obvious pattern.
    for i in (0..2_401).cycle().map(|i| i * 1_429 % 2_401) {
        if summary.events == MAX_LOG_EVENTS {
            break;
        }
        let word = [i / 343, i / 49 % 7, i / 7 % 7, i % 7].map(|event| event as u8);
        if let Ok(next) = summary.take(&word, &mut table) {
            summary = next;
            words.push(word.to_vec());
        }
    }
    assert_eq!(summary.rows, MAX_ROWS);
    Log { n, words }
}

/// A word of 128 events and the same backwards, each four times. They have the
/// rows of the empty and the whole word in common, so there are 256 rows.
fn long_words() -> Log {
    let word: Vec<u8> = (0..128).map(|i| (i * 167 % 251 % 12) as u8).collect();
    let backwards = word.iter().rev().copied().collect();
    Log {
        n: 12,
        words: vec![[word, backwards]; 4].concat(),
    }
}

/// Judges, and returns the sum of the counts.
fn judge_ours(buffers: &mut Buffers<Vec<u8>, u16>) -> Option<usize> {
    let bundle = black_box(&buffers.input);
    let counts = hovmekhar::judge(bundle, black_box(&mut buffers.output)).ok()?;
    Some(counts.rows + counts.allowed + counts.by_place + counts.by_weights)
}

fn judge_reference(buffers: &mut Buffers<Vec<u8>, u16>) -> Option<usize> {
    let bundle = black_box(&buffers.input);
    let counts = reference::judge(bundle, black_box(&mut buffers.output)).ok()?;
    Some(counts.rows + counts.allowed + counts.by_place + counts.by_weights)
}

/// A bundle of this size, the same in every run.
fn bundle_of(size: Size) -> Vec<u8> {
    size.certified(&mut Rng::new(0)).bundle.bytes()
}

/// The same in the new edition, with completed words and pairs.
fn new_bundle_of(size: Sales) -> Vec<u8> {
    size.certified(&mut Rng::new(0)).bundle.bytes()
}
