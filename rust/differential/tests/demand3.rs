//! Demand 3: two sealed files that open and are accepted, compared as `comparing` has it,
//! in both editions.

use differential::comparing::{compare, File};
use differential::limits::{LARGEST, MIDDLE, MOST_WORDS};
use differential::log_pairs::{pair, part_of, rewritten, Words};
use differential::run::Run;

/// Compares so many pairs of small bundles, as this makes the first log of the second one.
fn compare_pairs(
    run: &mut Run,
    pairs: usize,
    is_new: bool,
    make_first: fn(&mut Run, &Words) -> Words,
) {
    let mut compared = 0;
    while compared < pairs {
        if let Some([first, second]) = pair(run, is_new, make_first) {
            if first.bundle.is_new() != second.bundle.is_new() {
                run.note("an old and a new one");
            }
            let [first, second] = [first, second].map(|certified| File::accepted(run, certified));
            compare(run, &first, &second);
            compared += 1;
        }
    }
}

#[test]
fn included_logs() {
    let mut run = Run::start("included_logs");
    let pairs = run.cases(500);
    compare_pairs(&mut run, pairs, false, part_of);
    run.finish_with_classes(
        &[],
        &[
            ("pairs", 500),
            ("pairs with further ones in the second", 200),
            ("nets that permit the first log", 500 * 5),
            ("longer words", 5_000),
            ("words compared with the strictest net", 5_000),
            ("permitted, in the first log", 1_000),
            ("permitted, not in the first log", 30),
            ("permitted by the second only", 300),
            ("refused by both", 3_000),
            ("refused by a random net", 3_000),
        ],
    );
}

#[test]
fn equal_logs() {
    let mut run = Run::start("demand3::equal_logs");
    let pairs = run.cases(500);
    compare_pairs(&mut run, pairs, false, rewritten);
    run.finish_with_classes(
        &[],
        &[
            ("pairs", 500),
            ("pairs with the same prefixes and completed words", 500),
            ("nets that permit the first log", 500 * 5),
            ("longer words", 10_000),
            ("words compared with the strictest net", 10_000),
            ("permitted, in the first log", 2_000),
            ("permitted, not in the first log", 100),
            ("refused by both", 5_000),
            ("refused by a random net", 5_000),
        ],
    );
}

/// Completed words: those of the first log are completed in the second.
#[test]
fn included_completed_words() {
    let mut run = Run::start("included_completed_words");
    let pairs = run.cases(500);
    compare_pairs(&mut run, pairs, true, part_of);
    run.finish_with_classes(
        &[],
        &[
            ("pairs", 500),
            ("pairs with completed words", 150),
            ("pairs with further ones in the second", 200),
            ("an old and a new one", 50),
            ("nets that permit the first log", 500 * 5),
            ("words compared with the strictest net", 3_000),
            ("permitted, in the first log", 800),
            ("permitted, not in the first log", 200),
            ("permitted by the second only", 300),
            ("refused by both", 1_500),
            ("refused by a random net", 1_000),
        ],
    );
}

/// The same completed words, and others that are listed as partial, too.
#[test]
fn equal_completed_words() {
    let mut run = Run::start("equal_completed_words");
    let pairs = run.cases(500);
    compare_pairs(&mut run, pairs, true, rewritten);
    run.finish_with_classes(
        &[],
        &[
            ("pairs with completed words", 300),
            ("pairs with the same prefixes and completed words", 500),
            ("words compared with the strictest net", 5_000),
            ("permitted, in the first log", 1_500),
            ("permitted, not in the first log", 500),
            ("refused by both", 2_500),
            ("refused by a random net", 2_000),
        ],
    );
}

/// Two files with nets of their own for a log of 43 rows, where no net refuses 39 of
/// the wrong continuations.
#[test]
fn middle_files() {
    let mut run = Run::start("middle_files");
    let [first, second] = [(); 2].map(|()| {
        let certified = MIDDLE.certified(&mut run.rng);
        File::accepted(&mut run, certified)
    });
    assert!(first.net != second.net, "{run}");
    compare(&mut run, &first, &second);
    run.finish_with_classes(
        &[],
        &[
            ("pairs with the same prefixes and completed words", 1),
            ("longer words", 43 * 6),
            ("words compared with the strictest net", 43 * 6),
            ("permitted, in the first log", 42),
            ("permitted, not in the first log", 39),
            ("refused by both", 177),
        ],
    );
}

/// The largest files: other words, but the same prefixes.
#[test]
fn largest_files() {
    let mut run = Run::start("largest_files");
    let [first, second] = [LARGEST, MOST_WORDS].map(|size| {
        let certified = size.certified(&mut run.rng);
        File::accepted(&mut run, certified)
    });
    assert_ne!(first.words, second.words, "{run}");
    assert_eq!(first.prefixes(), second.prefixes(), "{run}");
    assert_eq!(first.counts, second.counts, "{run}");
    let prefixes: Vec<&[u8]> = first.prefixes().into_iter().collect();
    for _ in 0..run.cases(200) {
        // Event 1 is permitted after every number of zeros.
        let any = run.rng.below(first.n) as u8;
        let event = run.rng.choose(&[0, 1, 1, any]);
        let longer = [run.rng.choose(&prefixes), &[event]].concat();
        let permitted = first.permits(&mut run, &longer);
        assert_eq!(
            second.permits(&mut run, &longer),
            permitted,
            "{longer:?}, {run}"
        );
    }
    run.finish_with_classes(&[], &[("permitted", 200), ("stopped", 20)]);
}
