//! Bundles that are known byte by byte, with their answers.

use crate::run::{refusal, Outcome};
use reference::Tally;

/// Sample A: 53 bytes, accepted with the counts 5 4 5 1.
pub const SAMPLE_A: [u8; 53] = [
    // Two events and the words 1 and 0 0 1.
    2, 2, 1, 1, 3, 0, 0, 1, //
    // Two places.
    2, 1, 0, 1, 0, 0, 0, 1, 0, 1, 0, //
    2, 0, 0, 0, 0, 0, 1, 0, 0, 0, //
    // Six certificates, the third of kind 1.
    0, 0, //
    0, 0, //
    1, 2, 0, 2, 0, 0, 1, 1, 0, 3, 0, 1, 1, 0, //
    0, 1, //
    0, 0, //
    0, 0,
];

/// Sample A in the new edition: two marks and a pair count more.
pub const SAMPLE_A_NEW: [u8; 56] = [
    130, 2, 1, 0, 1, 3, 0, 0, 0, 1, //
    2, 1, 0, 1, 0, 0, 0, 1, 0, 1, 0, //
    2, 0, 0, 0, 0, 0, 1, 0, 0, 0, //
    0, 0, //
    0, 0, //
    1, 2, 0, 2, 0, 0, 1, 1, 0, 3, 0, 1, 1, 0, 0, //
    0, 1, //
    0, 0, //
    0, 0,
];

/// A bundle whose log has that of sample A and the word 0 0 0 1, accepted with the counts
/// 7 6 7 1: event 0 occurs once more.
pub const SAMPLE_LONGER: [u8; 62] = [
    // Two events and the words 1, 0 0 1 and 0 0 0 1.
    2, 3, 1, 1, 3, 0, 0, 1, 4, 0, 0, 0, 1, //
    // Two places.
    2, 1, 0, 1, 0, 0, 0, 1, 0, 1, 0, //
    3, 0, 0, 0, 0, 0, 1, 0, 0, 0, //
    // Eight certificates, the third of kind 1.
    0, 0, //
    0, 0, //
    1, 2, 0, 2, 0, 0, 1, 1, 0, 3, 0, 1, 1, 0, //
    0, 0, //
    0, 0, //
    0, 1, //
    0, 0, //
    0, 0,
];

/// Sample E: no word; one place refuses the only event.
pub const SAMPLE_E: [u8; 11] = [1, 0, 1, 0, 0, 0, 0, 1, 0, 0, 0];

/// Sample F: the certificate is missing.
pub const SAMPLE_F: [u8; 3] = [1, 0, 0];

/// Sample G: a certificate of kind 1 without terms.
pub const SAMPLE_G: [u8; 7] = [1, 0, 0, 1, 1, 0, 0];

/// Sample H: the same with k = 0.
pub const SAMPLE_H: [u8; 7] = [1, 0, 0, 1, 0, 0, 0];

/// A bundle of the new edition, accepted with the counts 4 3 7 2. Every place has its
/// initial tokens again after the word 0 1. So event 2 after it stands for event 2 at
/// first, with this word subtracted, and event 0 at first for event 0 after it, with the
/// word added.
pub const SAMPLE_NEW: [u8; 80] = [
    // Three events; the word 0 1, completed, and the word 0 1 2, partial.
    131, 2, 2, 1, 0, 1, 3, 0, 0, 1, 2, //
    // Event 0 takes the one token of the first place, event 1 puts it back, and event 2
    // takes it for good.
    2, 1, 0, 0, 0, 1, 0, 0, 0, 1, 0, 0, 0, 1, 0, //
    // Event 0 puts a token into the second place, and event 1 takes it.
    0, 0, 1, 0, 0, 0, 0, 0, 0, 0, 1, 0, 0, 0, //
    // Nine certificates; the second and the fifth are of kind 1.
    0, 1, //
    1, 1, 0, 1, 2, 0, 2, 1, 0, 1, 0, 255, 255, //
    0, 0, //
    0, 0, //
    1, 1, 0, 1, 0, 0, 0, 1, 0, 1, 0, 1, 0, //
    0, 1, //
    0, 0, //
    0, 1, //
    0, 0,
];

/// The same, but that event 0 puts two tokens into the second place, of which event 1 takes
/// one: after the completed word 0 1 there is one more.
pub fn unbalanced() -> Vec<u8> {
    let mut bundle = SAMPLE_NEW.to_vec();
    bundle[28] = 2;
    bundle
}

/// Five words of 255 events 0, of `n` events. With the last the events pass 1,024, so it is
/// refused with 8 at offset 2 + 4 × 256.
pub fn five_long_words(n: u8) -> Vec<u8> {
    let word = [[255].as_slice(), &[0; 255]].concat();
    [vec![n, 5], word.repeat(5)].concat()
}

/// A bundle for each answer of the judge that does not depend on the table.
pub fn one_for_each_answer() -> [(Vec<u8>, Outcome<Tally>); 12] {
    let changed = |position: usize, value| {
        let mut bundle = SAMPLE_A.to_vec();
        bundle[position] = value;
        bundle
    };
    let counts = Tally {
        rows: 5,
        allowed: 4,
        by_place: 5,
        by_weights: 1,
    };
    let new_counts = Tally {
        rows: 4,
        allowed: 3,
        by_place: 7,
        by_weights: 2,
    };
    let long_word = [[255].as_slice(), &[0; 255]].concat();
    [
        (SAMPLE_A.to_vec(), Ok(counts)),
        (SAMPLE_NEW.to_vec(), Ok(new_counts)),
        (Vec::new(), refusal(4, 0)),
        (SAMPLE_F.to_vec(), refusal(6, 3)),
        (SAMPLE_H.to_vec(), refusal(7, 4)),
        (five_long_words(1), refusal(8, 2 + 4 * 256)),
        // A word of 255 events 0, which needs all rows, and the word 1.
        (
            [vec![2, 2], long_word, vec![1, 1]].concat(),
            refusal(9, 2 + 256),
        ),
        // The first place without a token.
        (changed(9, 0), refusal(10, 0)),
        // The second place for the first wrong continuation.
        (changed(30, 1), refusal(11, 0)),
        (SAMPLE_G.to_vec(), refusal(12, 0)),
        ([SAMPLE_A.as_slice(), &[0]].concat(), refusal(13, 53)),
        (unbalanced(), refusal(20, 1)),
    ]
}
