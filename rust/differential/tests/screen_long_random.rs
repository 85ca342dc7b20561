//! Screening long random words on nets without a token to spare.

use differential::bundles::Bundle;
use differential::files::MAX_BUNDLE_SIZE;
use differential::logs::{random_word, MAX_EVENTS};
use differential::long_words::{positions, tight_net, FIRST, LENGTHS, SECOND_END};
use differential::rng::Rng;
use differential::run::{refusal, Run};
use differential::screening::{net, screen, screen_joined, stopped};
use reference::Screened;

/// The seed of the cases that are the same in each run. As many others are drawn anew.
const SEED: u64 = 20_241;

/// Generators for the cases that are always the same, and for others.
fn generators(run: &mut Run) -> [Rng; 2] {
    [SEED, run.rng.number()].map(Rng::new)
}

/// A word over so many events: random ones, or random ones many times in a row each.
fn long_word(rng: &mut Rng, n: usize) -> Vec<u8> {
    let length = rng.within(200..=9_000);
    match rng.below(3) {
        0 => {
            let stretch = rng.within(1..=600);
            let events = random_word(rng, n, length / stretch + 1..=length / stretch + 1);
            (0..length).map(|i| events[i / stretch]).collect()
        }
        _ => random_word(rng, n, length..=length),
    }
}

/// A net that permits a word, but in which one place or two may have some tokens less.
fn nearly_permitting(rng: &mut Rng, n: usize, count: usize, word: &[u8]) -> Bundle {
    let mut bundle = tight_net(rng, n, count, word);
    for _ in 0..rng.choose(&[0, 0, 0, 0, 0, 1, 1, 2]) {
        let place = rng.below(count);
        let fewer = rng.choose(&[1, 1, 2, 300]);
        bundle.places[place].m = bundle.places[place].m.saturating_sub(fewer);
    }
    bundle
}

/// The number of places of a net.
fn any_count(rng: &mut Rng) -> usize {
    let any = rng.within(1..=64);
    rng.choose(&[any, any, 3, 4, 8, 9])
}

/// Notes where a word is stopped.
fn note_part(run: &mut Run, screened: Screened) {
    if let Screened::Stopped { position, .. } = screened {
        run.note(match position {
            0..FIRST => "stopped in the first part",
            FIRST..SECOND_END => "stopped in the second",
            _ => "stopped behind",
        });
    }
}

/// One net.
#[test]
fn nets_and_words() {
    let mut run = Run::start("nets_and_words");
    for mut rng in generators(&mut run) {
        for _ in 0..run.cases(300) {
            let n = rng.within(1..=MAX_EVENTS);
            let word = long_word(&mut rng, n);
            let count = any_count(&mut rng);
            let bundle = nearly_permitting(&mut rng, n, count, &word);
            let outcome = screen(&mut run, &bundle.bytes(), &word);
            note_part(&mut run, outcome.expect("the bundle is sound"));
        }
    }
    run.finish_with_classes(
        &[(0, 600)],
        &[
            ("permitted", 200),
            ("stopped", 200),
            ("stopped in the first part", 50),
            ("stopped in the second", 40),
            ("stopped behind", 8),
        ],
    );
}

/// Two nets.
#[test]
fn two_nets_and_words() {
    let mut run = Run::start("two_nets_and_words");
    for mut rng in generators(&mut run) {
        for _ in 0..run.cases(200) {
            let n = rng.within(1..=MAX_EVENTS);
            let word = long_word(&mut rng, n);
            let [first, second] = [(); 2].map(|()| {
                let count = any_count(&mut rng);
                nearly_permitting(&mut rng, n, count, &word)
            });
            let outcome = screen_joined(&mut run, &first.bytes(), &second.bytes(), &word);
            let screened = outcome.expect("the bundles are sound");
            note_part(&mut run, screened);
            if let Screened::Stopped { place, .. } = screened {
                run.note(match place < first.places.len() {
                    true => "stopped by the first net",
                    false => "stopped by the second",
                });
            }
        }
    }
    run.finish_with_classes(
        &[(0, 400)],
        &[
            ("permitted", 50),
            ("stopped", 150),
            ("stopped by the first net", 50),
            ("stopped by the second", 50),
        ],
    );
}

/// Nothing behind the last place matters: not what is there, nor how much.
#[test]
fn bytes_behind_the_places() {
    let mut run = Run::start("bytes_behind_the_places");
    for mut rng in generators(&mut run) {
        for _ in 0..run.cases(40) {
            let n = rng.within(1..=MAX_EVENTS);
            let word = long_word(&mut rng, n);
            let count = any_count(&mut rng).max(3);
            let bundle = nearly_permitting(&mut rng, n, count, &word);
            let bytes = bundle.bytes();
            let expected = screen(&mut run, &bytes, &word);
            let left = MAX_BUNDLE_SIZE - bytes.len();
            // What would be read as further places, if the last eight were filled up.
            let eight = 8 * 2 * (1 + 2 * n);
            for behind in [1, 2, eight, left] {
                for noise in [vec![0; behind], vec![255; behind], rng.bytes(behind)] {
                    let longer = [bytes.as_slice(), &noise].concat();
                    assert_eq!(run.screen(&longer, &word), expected, "{run}");
                    let joined = run.screen_joined(&longer, &net(n, Vec::new()).bytes(), &word);
                    assert_eq!(joined, expected, "{run}");
                }
            }
        }
    }
    run.finish_with_classes(&[], &[("permitted", 400), ("stopped", 400)]);
}

/// An event that is not there, late in a word, comes before every stop; without it the word
/// is stopped at once.
#[test]
fn late_wrong_events() {
    let mut run = Run::start("late_wrong_events");
    for length in LENGTHS {
        for position in positions(length) {
            let n = run.rng.within(1..=MAX_EVENTS);
            let count = any_count(&mut run.rng).max(3);
            let mut word = random_word(&mut run.rng, n, length..=length);
            let mut bundle = tight_net(&mut run.rng, n, count, &word);
            let place = run.rng.below(count);
            bundle.places[place].outs.fill(u16::MAX);
            bundle.places[place].m = 0;
            // Other places may have no token for the first event either.
            let others = bundle.places.iter_mut().take(place);
            others.for_each(|other| other.m = u16::MAX);
            let bytes = bundle.bytes();
            let stop = stopped(0, place, 65_535);
            assert_eq!(run.screen(&bytes, &word), stop, "{run}");
            assert_eq!(run.screen_joined(&bytes, &bytes, &word), stop, "{run}");

            word[position] = run.rng.choose(&[n as u8, 12, 13, 128, 255]);
            // Others may follow.
            let behind = run.rng.within(position..=length - 1);
            word[behind] = 255;
            let refused = refusal(15, position);
            assert_eq!(run.screen(&bytes, &word), refused, "{run}");
            assert_eq!(run.screen_joined(&bytes, &bytes, &word), refused, "{run}");
        }
    }
    run.finish_with_classes(&[(15, 400)], &[("stopped", 400)]);
}
