//! Screening with two nets: the longest words, the largest nets and the largest numbers.

use differential::bundles::{Place, MAX_PLACES};
use differential::files::MAX_BUNDLE_SIZE;
use differential::limits::{LARGEST, MOST_WORDS};
use differential::logs::{random_word, MAX_EVENTS};
use differential::run::{refusal, Run};
use differential::screening::{net, screen_joined, stopped, MAX_WORD_EVENTS};
use reference::Screened;

/// A place with so many tokens, of which each of `n` events takes one.
fn counting(n: usize, tokens: usize) -> Place {
    Place {
        m: tokens as u16,
        ins: vec![0; n],
        outs: vec![1; n],
    }
}

/// Two nets over `n` events with so many places, all of which permit 65,535 events. The
/// place of this number, counted over both, permits only two.
fn nets(n: usize, counts: [usize; 2], refusing: usize) -> [Vec<u8>; 2] {
    let mut places = vec![counting(n, 65_535); counts[0] + counts[1]];
    if let Some(place) = places.get_mut(refusing) {
        place.m = 2;
    }
    let second = places.split_off(counts[0]);
    [places, second].map(|places| net(n, places).bytes())
}

/// Any one of 64 and 64 places refuses a step: every place number, 0 to 127.
#[test]
fn every_place_number() {
    let mut run = Run::start("every_place_number");
    for n in [1, 12] {
        for place in 0..2 * MAX_PLACES {
            let [first, second] = nets(n, [MAX_PLACES; 2], place);
            let outcome = screen_joined(&mut run, &first, &second, &[0; 4]);
            assert_eq!(outcome, stopped(2, place, 1), "{run}");
        }
        let [first, second] = nets(n, [MAX_PLACES; 2], 2 * MAX_PLACES);
        let outcome = screen_joined(&mut run, &first, &second, &[0; 4]);
        assert_eq!(outcome, Ok(Screened::Permitted), "{run}");
    }
    run.finish_with_classes(&[], &[("permitted", 2), ("stopped", 2 * 128)]);
}

/// Every two numbers of places, and the first that is too many on either side. The last
/// place refuses.
#[test]
fn every_two_place_counts() {
    let mut run = Run::start("every_two_place_counts");
    for first_count in 0..=MAX_PLACES + 1 {
        for second_count in 0..=MAX_PLACES + 1 {
            let all = first_count + second_count;
            let [first, second] = nets(1, [first_count, second_count], all.wrapping_sub(1));
            let outcome = screen_joined(&mut run, &first, &second, &[0; 3]);
            let expected = match all {
                _ if first_count.max(second_count) > MAX_PLACES => refusal(7, 2),
                0 => Ok(Screened::Permitted),
                _ => stopped(2, all - 1, 1),
            };
            assert_eq!(outcome, expected, "{first_count} + {second_count}, {run}");
        }
    }
    run.finish_with_classes(
        &[(7, 2 * 66 - 1)],
        &[("permitted", 1), ("stopped", 65 * 65 - 1)],
    );
}

/// The longest word, stopped by either net at every kind of position or by none; and a
/// longer one.
#[test]
fn positions_of_the_longest_word() {
    let mut run = Run::start("screen_joined_limits::positions_of_the_longest_word");
    let word = vec![0; MAX_WORD_EVENTS + 1];
    let longest = &word[..MAX_WORD_EVENTS];
    let tokens = [0, 1, 255, 256, 32_768, 65_533, 65_534, 65_535];
    for first in tokens {
        for second in tokens {
            let bundles = [first, second].map(|m| net(1, vec![counting(1, m)]).bytes());
            let outcome = screen_joined(&mut run, &bundles[0], &bundles[1], longest);
            let expected = match (first, second) {
                (MAX_WORD_EVENTS, MAX_WORD_EVENTS) => Ok(Screened::Permitted),
                _ if first <= second => stopped(first, 0, 1),
                _ => stopped(second, 1, 1),
            };
            assert_eq!(outcome, expected, "{first} {second}, {run}");
            let outcome = screen_joined(&mut run, &bundles[0], &bundles[1], &word);
            assert_eq!(outcome, refusal(14, 65_535), "{run}");
        }
    }
    run.finish_with_classes(&[(14, 64)], &[("permitted", 1), ("stopped", 63)]);
}

/// Twelve events, 64 and 64 places and the longest word: permitted, or stopped by any one
/// of them anywhere.
#[test]
fn largest_nets() {
    let mut run = Run::start("largest_nets");
    let word = random_word(&mut run.rng, MAX_EVENTS, MAX_WORD_EVENTS..=MAX_WORD_EVENTS);
    for _ in 0..run.cases(6) {
        // Each event puts in at least as many tokens as it takes out.
        let mut place = |_| {
            let outs: Vec<u16> = (0..MAX_EVENTS)
                .map(|_| run.rng.within(0..=30_000) as u16)
                .collect();
            let more = |out: &u16| out + run.rng.within(0..=30_000) as u16;
            let ins = outs.iter().map(more).collect();
            let m = 30_000;
            Place { m, ins, outs }
        };
        let mut places: Vec<Place> = (0..2 * MAX_PLACES).map(&mut place).collect();
        let bytes = |places: &[Place]| {
            let (first, second) = places.split_at(MAX_PLACES);
            [first, second].map(|places| net(MAX_EVENTS, places.to_vec()).bytes())
        };
        let [first, second] = bytes(&places);
        let outcome = run.screen_joined(&first, &second, &word);
        assert_eq!(outcome, Ok(Screened::Permitted), "{run}");

        // One place of the second has tokens only up to a position, and some place of the
        // first as many or one more.
        let position = run.rng.within(0..=65_000);
        let [lower, higher] = [0, MAX_PLACES].map(|from| from + run.rng.below(MAX_PLACES));
        places[higher] = counting(MAX_EVENTS, position);
        for (tokens, place) in [(position, lower), (position + 1, higher)] {
            places[lower] = counting(MAX_EVENTS, tokens);
            let [first, second] = bytes(&places);
            let outcome = run.screen_joined(&first, &second, &word);
            assert_eq!(outcome, stopped(position, place, 1), "{run}");
        }
    }
    run.finish_with_classes(&[(0, 18)], &[("permitted", 6), ("stopped", 12)]);
}

/// The largest shortfall, of a place of the second net, and tokens that pass 32 bits.
#[test]
fn largest_numbers() {
    let mut run = Run::start("screen_joined_limits::largest_numbers");
    let largest = 65_535;
    let place = |m, puts, takes| Place {
        m,
        ins: vec![puts, 0],
        outs: vec![0, takes],
    };
    let first = net(2, vec![place(largest, largest, largest)]).bytes();
    for (ups, downs, second, expected) in [
        (1, 1, place(largest, 0, largest), Ok(Screened::Permitted)),
        (1, 2, place(largest, 0, largest), stopped(2, 1, 65_535)),
        (0, 1, place(0, 0, largest), stopped(0, 1, 65_535)),
        (0, 1, place(255, 0, largest), stopped(0, 1, 65_280)),
        (
            32_767,
            32_768,
            place(0, largest, 1),
            Ok(Screened::Permitted),
        ),
        (
            32_766,
            32_768,
            place(0, largest, 1),
            stopped(65_533, 0, 65_535),
        ),
        (
            32_767,
            32_768,
            place(0, largest, largest),
            stopped(65_534, 1, 65_535),
        ),
    ] {
        let second = net(2, vec![second]).bytes();
        let word = [vec![0; ups], vec![1; downs]].concat();
        let outcome = screen_joined(&mut run, &first, &second, &word);
        assert_eq!(outcome, expected, "{ups} {downs}, {run}");
    }
    run.finish_with_classes(&[], &[("permitted", 2), ("stopped", 5)]);
}

/// Two of the largest bundles that the judge accepts: every word of both logs is permitted,
/// and event 0 occurs at most 253 times. A byte more on either side is too long.
#[test]
fn largest_bundles() {
    let mut run = Run::start("screen_joined_limits::largest_bundles");
    let bundles = [LARGEST, MOST_WORDS].map(|size| size.certified(&mut run.rng).bundle);
    let bytes = bundles.each_ref().map(|bundle| bundle.bytes());
    let longer = bytes
        .each_ref()
        .map(|bytes| [bytes, [0].as_slice()].concat());
    assert!(bytes.iter().all(|bytes| bytes.len() == MAX_BUNDLE_SIZE));
    for word in bundles.iter().flat_map(|bundle| &bundle.words) {
        let outcome = run.screen_joined(&bytes[0], &bytes[1], word);
        assert_eq!(outcome, Ok(Screened::Permitted), "{word:?}, {run}");
    }
    let zeros = vec![0; MAX_WORD_EVENTS];
    let Ok(Screened::Stopped { position, .. }) = run.screen_joined(&bytes[0], &bytes[1], &zeros)
    else {
        panic!("permitted or refused: {run}");
    };
    assert_eq!(position, LARGEST.zeros, "{run}");
    for (first, second) in [(&longer[0], &bytes[1]), (&bytes[0], &longer[1])] {
        let outcome = screen_joined(&mut run, first, second, &[0]);
        assert_eq!(outcome, refusal(4, 0), "{run}");
    }
    run.finish_with_classes(
        &[(0, 252 + 255 + 1), (4, 2)],
        &[("permitted", 252 + 255), ("stopped", 1)],
    );
}
