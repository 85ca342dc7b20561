//! Replacing a net: bundles that are cut anywhere, or altered in any byte, as the old one, as
//! the new one, and as both.

use differential::bundle_faults::refusal_of_cut;
use differential::bundles::{Bundle, SAMPLE_A, SAMPLE_E, SAMPLE_NEW};
use differential::engine::{any_tokens, replace};
use differential::logs::random_word;
use differential::run::{refusal, Outcome, Run};
use differential::screening::{two_nets, ONE_FOLLOWS};

/// Two bundles over the same events, of up to so many bytes each, and the events so far: one
/// buffer in five has an event that is not there.
fn small_nets(run: &mut Run, most: usize) -> (Bundle, Bundle, Vec<u8>) {
    loop {
        let (old, new, word) = two_nets(&mut run.rng);
        if old.bytes().len() > most || new.bytes().len() > most {
            continue;
        }
        let mut kept = word[..run.rng.within(0..=word.len())].to_vec();
        if run.rng.below(5) == 0 {
            let position = run.rng.within(0..=kept.len());
            kept.insert(position, run.rng.within(old.n..=255) as u8);
        }
        return (old, new, kept);
    }
}

/// Every beginning of either bundle, beside the whole other one: as long as a byte of the
/// last place is missing, that bundle is refused, with an offset of its own.
#[test]
fn every_beginning() {
    let mut run = Run::start("replace_faults::every_beginning");
    for _ in 0..run.cases(40) {
        let (old, new, kept) = small_nets(&mut run, 400);
        let layouts = [old.layout(), new.layout()];
        let whole = layouts.each_ref().map(|layout| layout.bytes.as_slice());
        let tokens = any_tokens(&mut run.rng, 66);
        let uncut = replace(&mut run, whole, &tokens, &kept, kept.len());
        for side in 0..2 {
            for length in 0..=whole[side].len() {
                let mut cut = whole;
                cut[side] = &whole[side][..length];
                let expected: Outcome<()> = if length == 0 {
                    refusal(4, 0)
                } else if length < layouts[side].places_end {
                    run.note(["the old one is cut", "the new one is cut"][side]);
                    Err(refusal_of_cut(&layouts[side], length))
                } else {
                    uncut.outcome
                };
                let replaced = replace(&mut run, cut, &tokens, &kept, kept.len());
                assert_eq!(replaced.outcome, expected, "{length} of side {side}, {run}");
            }
        }
    }
    run.finish_with_classes(
        &[(0, 25), (4, 2 * 40), (6, 3_000)],
        &[("the old one is cut", 1_000), ("the new one is cut", 1_000)],
    );
}

/// Both bundles are cut: the old one's offset is named.
#[test]
fn both_cut() {
    let mut run = Run::start("replace_faults::both_cut");
    for _ in 0..run.cases(500) {
        let (old, new, kept) = small_nets(&mut run, 2_000);
        let layouts = [old.layout(), new.layout()];
        let lengths = layouts
            .each_ref()
            .map(|layout| run.rng.within(1..=layout.places_end - 1));
        let nets = [0, 1].map(|side| &layouts[side].bytes[..lengths[side]]);
        let replaced = replace(&mut run, nets, &[7; 64], &kept, kept.len());
        let refused = refusal_of_cut(&layouts[0], lengths[0]);
        assert_eq!(replaced.outcome, Err(refused), "{run}");
        if refused != refusal_of_cut(&layouts[1], lengths[1]) {
            run.note("the new one's offset is another");
        }
    }
    run.finish_with_classes(&[(6, 500)], &[("the new one's offset is another", 300)]);
}

/// Every value of every byte of a bundle, as the old one and as the new one.
fn every_value(run: &mut Run, bundle: &[u8], other: &[u8], words: &[&[u8]]) {
    for position in 0..bundle.len() {
        for value in 0..=255 {
            let mut bytes = bundle.to_vec();
            bytes[position] = value;
            for word in words {
                replace(run, [&bytes, other], &[7; 3], word, word.len());
                replace(run, [other, &bytes], &[7; 3], word, word.len());
            }
        }
    }
}

#[test]
fn every_byte() {
    let mut run = Run::start("replace_faults::every_byte");
    let words: [&[u8]; 3] = [&[0, 1], &[1, 0], &[0, 2]];
    every_value(&mut run, &SAMPLE_A, &ONE_FOLLOWS, &words);
    every_value(&mut run, &ONE_FOLLOWS, &SAMPLE_A, &words);
    every_value(&mut run, &SAMPLE_E, &SAMPLE_E, &[&[], &[0], &[1]]);
    every_value(&mut run, &SAMPLE_NEW, &[3, 0, 0], &[&[0, 1, 2]]);
    run.finish_with_classes(
        &[
            (5, 4),
            (6, 4_550),
            (7, 23_994),
            (15, 31_861),
            (22, 100),
            (23, 35_924),
        ],
        &[("replaced", 62_799)],
    );
}

/// Small random bytes in place of the bundles.
#[test]
fn noise() {
    let mut run = Run::start("replace_faults::noise");
    for _ in 0..run.cases(8_000) {
        let largest = run.rng.choose(&[1, 1, 2, 3, 12, 255]);
        let mut bundle = || {
            let length = run.rng.within(1..=30);
            let mut bytes: Vec<u8> = (0..length)
                .map(|_| run.rng.within(0..=largest) as u8)
                .collect();
            bytes[0] = run.rng.choose(&[1, 2, 129, 130, 12, 13]);
            bytes
        };
        let nets = [bundle(), bundle()];
        let kept = random_word(&mut run.rng, 2, 0..=6);
        let nets = nets.each_ref().map(Vec::as_slice);
        let tokens = any_tokens(&mut run.rng, 3);
        replace(&mut run, nets, &tokens, &kept, kept.len());
    }
    run.finish_with_classes(
        &[(6, 1_500), (7, 3_000), (15, 60), (22, 300), (23, 8)],
        &[("replaced", 100)],
    );
}
