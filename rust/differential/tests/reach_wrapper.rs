//! The safe call of the search for a word: results and errors, against the reference.

use differential::bundle_faults::altered;
use differential::bundles::{five_long_words, SAMPLE_A, SAMPLE_NEW};
use differential::reaching::{any_wanted, few_tokens, Shape, MOST};
use differential::run::{Outcome, Run};
use hovmekhar::{Reached, Refusal, Screened, MAX_REACH_EVENTS};
use std::collections::HashSet;
use std::error::Error;

/// The safe call in the reference's terms.
fn reach(bundle: &[u8], wanted: usize) -> Outcome<Option<Vec<u8>>> {
    match hovmekhar::reach(bundle, wanted) {
        Ok(word) => Ok(word.map(|word| word.as_slice().to_vec())),
        Err(Refusal { number, spot }) => Err(reference::Refusal { number, spot }),
    }
}

#[test]
fn calls_agree() {
    let mut run = Run::start("reach_wrapper::calls_agree");
    for _ in 0..run.cases(3_000) {
        let (bundle, wanted) = few_tokens(&mut run.rng);
        let (bytes, wanted) = match run.rng.below(3) {
            0 => {
                let bytes = altered(&mut run.rng, &bundle);
                (bytes, any_wanted(&mut run.rng, bundle.n))
            }
            _ => (bundle.bytes(), wanted),
        };
        let reached = run.reach(&bytes, wanted);
        assert_eq!(reach(&bytes, wanted), reached, "{run}");
    }
    run.finish_with_classes(
        &[(0, 1_800), (6, 120), (7, 150), (15, 50)],
        &[
            ("no event", 350),
            ("1 event", 150),
            ("3 events", 100),
            ("5 events", 40),
            ("none", 700),
        ],
    );
}

/// A word is used as a slice of its events, and is equal to one with the same events, whatever
/// bundle it is from.
#[test]
fn words_are_slices() {
    let mut run = Run::start("reach_wrapper::words_are_slices");
    assert_eq!(MAX_REACH_EVENTS, MOST);
    let mut different = HashSet::new();
    for length in 0..=MOST {
        let [first, second] = [(); 2].map(|()| {
            let goal = Shape::Gathered.goal(&mut run.rng, 2, length);
            let bundle = goal.bundle.bytes();
            let word = hovmekhar::reach(&bundle, goal.wanted).expect("an event that is there");
            let word = word.expect("it leads there");
            assert_eq!(word.as_slice(), goal.word);
            assert_eq!((word.len(), &word[..]), (length, goal.word.as_slice()));
            assert_eq!(hovmekhar::screen(&bundle, &word), Ok(Screened::Permitted));
            assert_eq!(format!("{word:?}"), format!("Reached({:?})", goal.word));
            word
        });
        // Of two events one is wanted, so the other one is all of the word.
        assert_eq!(first == second, first.as_slice() == second.as_slice());
        different.extend([first, second]);
    }
    let words: HashSet<&[u8]> = different.iter().map(Reached::as_slice).collect();
    assert_eq!(words.len(), different.len());
}

/// Each refusal is an error with its number, its spot and a sentence with both.
#[test]
fn refusals_are_errors() {
    let five_words = five_long_words(1);
    let a = SAMPLE_A.as_slice();
    for (bundle, wanted, number, spot) in [
        ([].as_slice(), 9, Refusal::BUNDLE_LENGTH, 0),
        (&a[..28], 9, Refusal::BUNDLE_END, 27),
        (&[13, 0, 0], 9, Refusal::VALUE, 0),
        (&five_words, 9, Refusal::EVENTS, 2 + 4 * 256),
        (a, 2, Refusal::WORD_EVENT, 0),
        (&SAMPLE_NEW, usize::MAX, Refusal::WORD_EVENT, 0),
    ] {
        let refusal = hovmekhar::reach(bundle, wanted).expect_err("each of these is refused");
        assert_eq!(refusal, Refusal { number, spot });
        let error: Box<dyn Error> = Box::new(refusal);
        let sentence = error.to_string();
        let starts = sentence.starts_with(&format!("refusal {number}: "));
        assert!(starts, "{sentence}");
        let has_spot = number == Refusal::BUNDLE_LENGTH || sentence.contains(&spot.to_string());
        assert!(has_spot, "{sentence}");
    }
}
