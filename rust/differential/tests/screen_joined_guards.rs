//! Screening with two nets: guards around the three inputs, at every alignment, and inputs
//! that are parts of each other.

use differential::bundles::{five_long_words, Field, SAMPLE_A, SAMPLE_E, SAMPLE_F};
use differential::guarded::ReadOnly;
use differential::nets::small_certified;
use differential::run::Run;
use differential::screening::MAX_WORD_EVENTS;
use hovmekhar::ffi;

/// Alignments to try: all within a cache line, more than any load asks for.
const ALIGNMENTS: usize = 64;

/// One call for each answer, with a refusal of either bundle, and the largest place number
/// and shortfall.
fn cases() -> Vec<ReadOnly<3>> {
    let case = |first: &[u8], second: &[u8], word: &[u8], number, answered: &[u64]| ReadOnly {
        inputs: [first.to_vec(), second.to_vec(), word.to_vec()],
        number,
        answered: answered.to_vec(),
    };
    let five_words = five_long_words(1);
    // 64 places that permit everything, or of which the last permits nothing.
    let many = [vec![1, 0, 64], vec![0; 64 * 6]].concat();
    let mut last_takes_most = many.clone();
    last_takes_most[3 + 64 * 6 - 2..].fill(255);
    let a = SAMPLE_A.as_slice();
    let cut = &a[..28];
    vec![
        case(a, a, &[0, 1], 0, &[]),
        case(&SAMPLE_F, &many, &[], 0, &[]),
        case(a, a, &[1, 0], ffi::STOPPED, &[1, 0, 1]),
        case(&SAMPLE_F, &SAMPLE_E, &[0], ffi::STOPPED, &[0, 0, 1]),
        case(
            &many,
            &last_takes_most,
            &[0],
            ffi::STOPPED,
            &[0, 127, 65_535],
        ),
        case(&[], a, &[1, 0], 4, &[0]),
        case(a, &[], &[1, 0], 4, &[0]),
        case(cut, a, &[1, 0], 6, &[27]),
        case(a, cut, &[1, 0], 6, &[27]),
        case(&[0, 0, 0], a, &[1, 0], 7, &[0]),
        case(a, &[2, 0, 65], &[1, 0], 7, &[2]),
        case(&five_words, a, &[1, 0], 8, &[2 + 4 * 256]),
        case(a, &five_words, &[1, 0], 8, &[2 + 4 * 256]),
        case(a, a, &[0; MAX_WORD_EVENTS + 1], 14, &[65_535]),
        case(a, a, &[1, 0, 2], 15, &[2]),
        case(a, &SAMPLE_E, &[1, 0, 2], 19, &[0]),
    ]
}

/// The inputs and everything around them stay as they were, and of the answer what is not
/// used does, whatever it held.
#[test]
fn guards_of_joined_screening_stay_as_they_were() {
    let mut run = Run::start("guards_of_joined_screening_stay_as_they_were");
    let cases = cases();
    for alignment in 0..ALIGNMENTS {
        for case in &cases {
            for side in 0..3 {
                let mut fronts = [0; 3].map(|_| ALIGNMENTS + run.rng.below(ALIGNMENTS));
                fronts[side] = ALIGNMENTS + alignment;
                case.between_guards(&mut run, fronts, |[first, second, word], answer| {
                    ffi::screen_joined(first, second, word, answer)
                });
            }
        }
    }
    // For each of 64 alignments each of the 16 cases three times.
    let times = 64 * 3;
    let both_bundles = [4, 6, 7, 8].map(|number| (number, 2 * times));
    let others = [(0, 5 * times), (14, times), (15, times), (19, times)];
    run.finish(&[both_bundles, others].concat());
}

/// A bundle joined to itself, in one buffer, with a word of its log in it.
#[test]
fn parts_of_each_other() {
    let mut run = Run::start("parts_of_each_other");
    for _ in 0..run.cases(200) {
        let certified = small_certified(&mut run.rng).bundle;
        let layout = certified.layout();
        let bundle = &layout.bytes;
        for length in layout.all(Field::Length) {
            let start = length.end + usize::from(certified.is_new());
            let end = start + usize::from(bundle[length.start]);
            for word in [&bundle[start..end], &bundle[start..=end]] {
                let apart = run.screen_joined(bundle, bundle, word);
                let mut answer = [9; 4];
                let number = ffi::screen_joined(bundle, bundle, word, &mut answer);
                let mut alone = [9; 4];
                let expected = ffi::screen(bundle, word, &mut alone);
                assert_eq!((number, answer), (expected, alone), "{apart:?}, {run}");
            }
        }
    }
    run.finish_with_classes(&[(15, 60)], &[("permitted", 400), ("stopped", 100)]);
}
