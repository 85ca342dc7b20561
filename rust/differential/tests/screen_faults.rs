//! Screening: bundles with a fault up to their last place, or behind it, and words
//! with events that are not there.

use differential::bundle_faults::{altered, refusal_of_cut, BundleFault};
use differential::bundles::{Bundle, Field, Place, MAX_PLACES};
use differential::bundles::{SAMPLE_A, SAMPLE_E, SAMPLE_NEW};
use differential::logs::{random_word, MAX_LOG_EVENTS, TABLE};
use differential::nets::{small_certified, Certified};
use differential::run::{refusal, Run};
use differential::screening::{any_net, screen, stopped, Kind};
use reference::Screened;

/// A word of any kind; one in five has an event that is not there.
fn any_word(run: &mut Run, bundle: &Bundle) -> Vec<u8> {
    let kind = run.rng.choose(&Kind::ALL);
    let mut word = kind.word(&mut run.rng, bundle);
    if run.rng.below(5) == 0 {
        let position = run.rng.within(0..=word.len());
        word.insert(position, run.rng.within(bundle.n..=255) as u8);
    }
    word
}

/// A bundle of up to so many bytes.
fn small_bundle(run: &mut Run, most: usize) -> Bundle {
    loop {
        let bundle = match run.rng.below(2) {
            0 => small_certified(&mut run.rng).bundle,
            _ => any_net(&mut run.rng).0,
        };
        if bundle.bytes().len() <= most {
            return bundle;
        }
    }
}

/// Every beginning of a bundle and of a few bytes behind it: as long as a byte of the
/// last place is missing it ends before or inside a field, and what is missing
/// further behind does not matter.
#[test]
fn every_beginning() {
    let mut run = Run::start("screen_faults::every_beginning");
    for _ in 0..run.cases(40) {
        let bundle = small_bundle(&mut run, 400);
        let layout = bundle.layout();
        let bytes = [layout.bytes.as_slice(), &run.rng.bytes(10)].concat();
        let word = any_word(&mut run, &bundle);
        let whole = screen(&mut run, &bytes, &word);
        for length in 0..bytes.len() {
            let expected = if length == 0 {
                refusal(4, 0)
            } else if length < layout.places_end {
                Err(refusal_of_cut(&layout, length))
            } else {
                run.note("cut behind the last place");
                whole
            };
            let outcome = screen(&mut run, &bytes[..length], &word);
            assert_eq!(outcome, expected, "{length} of {layout:?}, {run}");
        }
    }
    run.finish_with_classes(
        &[(0, 100), (4, 40), (6, 1_000)],
        &[("cut behind the last place", 400)],
    );
}

/// Every value of every byte of a bundle, with each of these words.
fn every_value(run: &mut Run, bundle: &[u8], words: &[&[u8]]) {
    for position in 0..bundle.len() {
        for value in 0..=255 {
            let mut bytes = bundle.to_vec();
            bytes[position] = value;
            for word in words {
                screen(run, &bytes, word).ok();
            }
        }
    }
}

#[test]
fn every_byte() {
    let mut run = Run::start("screen_faults::every_byte");
    let words: [&[u8]; 4] = [&[0, 1], &[1, 0], &[0, 0, 0, 1], &[2]];
    every_value(&mut run, &SAMPLE_A, &words);
    every_value(&mut run, &SAMPLE_E, &[&[], &[0], &[1]]);
    every_value(&mut run, &SAMPLE_NEW, &[&[0, 1, 2], &[1], &[0, 0], &[3]]);
    run.finish_with_classes(
        &[(0, 10_000), (6, 1_000), (7, 2_000), (15, 5_000)],
        &[("permitted", 3_000), ("stopped", 3_000)],
    );
}

/// Flipped bits up to the last place.
#[test]
fn flipped_bits() {
    let mut run = Run::start("flipped_bits");
    for _ in 0..run.cases(500) {
        let bundle = small_bundle(&mut run, 2_000);
        let layout = bundle.layout();
        let word = any_word(&mut run, &bundle);
        for _ in 0..10 {
            let mut bytes = layout.bytes.clone();
            for _ in 0..run.rng.within(1..=3) {
                bytes[run.rng.below(layout.places_end)] ^= 1 << run.rng.below(8);
            }
            screen(&mut run, &bytes, &word).ok();
        }
    }
    run.finish_with_classes(
        &[(6, 80), (7, 500), (15, 200)],
        &[("permitted", 300), ("stopped", 500)],
    );
}

/// Wrong values up to the last place are refused whatever the word is.
#[test]
fn wrong_values() {
    let mut run = Run::start("wrong_values");
    let fields = [
        Field::EventCount,
        Field::Mark,
        Field::Event,
        Field::PlaceCount,
    ];
    for field in fields {
        let mut made = 0;
        while made < run.cases(200) {
            let certified = small_certified(&mut run.rng);
            let fault = BundleFault::Value(field).bytes(&mut run.rng, &certified);
            if let Some((bytes, refused)) = fault {
                let word = any_word(&mut run, &certified.bundle);
                let outcome = screen(&mut run, &bytes, &word);
                assert_eq!(outcome, Err(refused), "{field:?}, {bytes:?}, {run}");
                made += 1;
            }
        }
    }
    run.finish(&[(7, 800)]);
}

/// Whether a fault leaves everything up to the last place as it was.
fn is_behind_the_places(fault: BundleFault, certified: &Certified, bytes: &[u8]) -> bool {
    let end = certified.bundle.layout().places_end;
    fault != BundleFault::Cut && bytes[..end] == certified.bundle.bytes()[..end]
}

/// The judge refuses each of these bundles. Where the places are as they were,
/// screening answers as before; where one of them no longer fits, some word of the
/// log is stopped.
#[test]
fn faults_that_only_the_judge_refuses() {
    let mut run = Run::start("faults_that_only_the_judge_refuses");
    for fault in BundleFault::ALL {
        for _ in 0..run.cases(100) {
            let certified = small_certified(&mut run.rng);
            let Some((bytes, refused)) = fault.bytes(&mut run.rng, &certified) else {
                continue;
            };
            if is_behind_the_places(fault, &certified, &bytes) {
                let word = any_word(&mut run, &certified.bundle);
                let before = screen(&mut run, &certified.bundle.bytes(), &word);
                let outcome = screen(&mut run, &bytes, &word);
                assert_eq!(outcome, before, "{fault:?}, {bytes:?}, {run}");
                run.note("a fault behind the last place");
            } else if refused.number == 10 {
                let words = &certified.bundle.words;
                let mut screened = words.iter().map(|word| screen(&mut run, &bytes, word));
                let is_stopped = screened.any(|outcome| outcome != Ok(Screened::Permitted));
                assert!(is_stopped, "{fault:?}, {bytes:?}, {run}");
                run.note("a place that does not fit");
            }
        }
    }
    run.finish_with_classes(
        &[(0, 600)],
        &[
            ("a fault behind the last place", 200),
            ("a place that does not fit", 50),
        ],
    );
}

/// A log with so many events, in words of up to 255.
fn words_of(run: &mut Run, n: usize, events: usize) -> Vec<Vec<u8>> {
    let mut words = Vec::new();
    let mut left = events;
    while left > 0 {
        let length = left.min(run.rng.within(50..=255));
        words.push(random_word(&mut run.rng, n, length..=length));
        left -= length;
    }
    words
}

/// Up to 1,024 events are read, however many rows they have; the word with which
/// they would pass is not.
#[test]
fn events_up_to_the_limit() {
    let mut run = Run::start("screen_faults::events_up_to_the_limit");
    for _ in 0..run.cases(200) {
        let (net, _) = any_net(&mut run.rng);
        let events = MAX_LOG_EVENTS - run.rng.choose(&[0, 0, 1, 2, 20]);
        let words = words_of(&mut run, net.n, events);
        let most = Bundle { words, ..net };
        let word = any_word(&mut run, &most);
        let bytes = most.bytes();
        let outcome = screen(&mut run, &bytes, &word);
        assert_ne!(outcome.map_err(|refused| refused.number), Err(8), "{run}");
        let judged = run.judge(&bytes, &[0; TABLE]);
        if judged.outcome.is_err_and(|refused| refused.number == 9) {
            run.note("more rows than the judge counts");
        }

        // One event too many, in a word that is there, is cut or has a wrong event.
        let left = MAX_LOG_EVENTS - events;
        let mut longer = most.clone();
        let mut last = vec![0; left + run.rng.choose(&[1, 1, 2, 200])];
        let position = run.rng.below(last.len());
        last[position] = run.rng.choose(&[0, 12, 255]);
        longer.words.push(last);
        let layout = longer.layout();
        let length_bytes = layout.all(Field::Length);
        let spot = length_bytes.last().expect("a word").start;
        let cut = run.rng.within(spot + 1..=layout.bytes.len());
        let cut = run.rng.choose(&[cut, layout.bytes.len()]);
        let outcome = screen(&mut run, &layout.bytes[..cut], &word);
        assert_eq!(outcome, refusal(8, spot), "{run}");
    }
    run.finish_with_classes(
        &[(0, 100), (8, 200), (9, 50), (15, 10)],
        &[("more rows than the judge counts", 50)],
    );
}

/// Every number of places, and the first two that are too many.
#[test]
fn places_up_to_the_limit() {
    let mut run = Run::start("screen_faults::places_up_to_the_limit");
    for n in [1, 2, 12] {
        for count in 0..=MAX_PLACES + 2 {
            // Only the last place refuses something: the third event 0.
            let mut places = vec![
                Place {
                    m: 65_535,
                    ins: vec![0; n],
                    outs: vec![1; n],
                };
                count
            ];
            if let Some(last) = places.last_mut() {
                last.m = 2;
            }
            let bundle = Bundle {
                n,
                words: vec![vec![0]],
                marks: None,
                places,
                certificates: Vec::new(),
            };
            let outcome = screen(&mut run, &bundle.bytes(), &[0; 5]);
            let expected = match count {
                0 => Ok(Screened::Permitted),
                1..=MAX_PLACES => stopped(2, count - 1, 1),
                _ => refusal(7, 4),
            };
            assert_eq!(outcome, expected, "{count} places, {run}");
        }
    }
    run.finish_with_classes(&[(7, 6)], &[("permitted", 3), ("stopped", 3 * 64)]);
}

/// Up to four changes at once. The definitions say which fault comes first.
#[test]
fn several_faults() {
    let mut run = Run::start("screen_faults::several_faults");
    for _ in 0..run.cases(500) {
        let bundle = small_bundle(&mut run, 2_000);
        for _ in 0..8 {
            let bytes = altered(&mut run.rng, &bundle);
            let word = any_word(&mut run, &bundle);
            screen(&mut run, &bytes, &word).ok();
        }
    }
    run.finish_with_classes(
        &[(6, 200), (7, 200), (15, 100)],
        &[("permitted", 300), ("stopped", 300)],
    );
}

/// Small random bytes in place of a bundle.
#[test]
fn noise() {
    let mut run = Run::start("screen_faults::noise");
    for _ in 0..run.cases(5_000) {
        let largest = run.rng.choose(&[1, 2, 3, 12, 255]);
        let length = run.rng.within(1..=100);
        let bytes: Vec<u8> = (0..length)
            .map(|_| run.rng.within(0..=largest) as u8)
            .collect();
        let word = random_word(&mut run.rng, largest.min(3), 0..=6);
        screen(&mut run, &bytes, &word).ok();
    }
    run.finish_with_classes(
        &[(6, 100), (7, 2_000), (15, 100)],
        &[("permitted", 300), ("stopped", 100)],
    );
}
