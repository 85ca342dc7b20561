//! The search for a word: the largest numbers, the most permitted words, the longest bundles
//! and the largest nets behind the longest logs.

use differential::bundles::{Bundle, Field, Place, MAX_PLACES, NEW};
use differential::files::MAX_BUNDLE_SIZE;
use differential::limits::{LARGEST, MOST_WORDS};
use differential::logs::{random_word, MAX_EVENTS, MAX_LOG_EVENTS};
use differential::places::first_refused;
use differential::reaching::{reach, words, Shape, MOST};
use differential::run::{refusal, Outcome, Run};
use differential::sales::LARGEST_NEW;
use differential::screening::{net, read_net};

/// The largest number of a place, which is three times [`THIRD`].
const TOP: u16 = u16::MAX;
const THIRD: u16 = TOP / 3;

/// A place over twelve events with the same numbers for each.
fn even(m: u16, put: u16, taken: u16) -> Place {
    Place {
        m,
        ins: vec![put; MAX_EVENTS],
        outs: vec![taken; MAX_EVENTS],
    }
}

/// A net of 63 places like the first one, and the other one anywhere.
fn beside(run: &mut Run, place: &Place, other: Place) -> Vec<u8> {
    let mut places = vec![place.clone(); MAX_PLACES];
    places[run.rng.below(MAX_PLACES)] = other;
    net(MAX_EVENTS, places).bytes()
}

/// The answer that is this word.
fn word(events: &[usize]) -> Outcome<Option<Vec<u8>>> {
    Ok(Some(events.iter().map(|&event| event as u8).collect()))
}

/// Each event takes the largest initial tokens out of 64 places, and puts as many back: all
/// are permitted. With a token fewer in any one place none is.
#[test]
fn all_numbers_largest() {
    let mut run = Run::start("reach_limits::all_numbers_largest");
    let place = even(TOP, TOP, TOP);
    let full = net(MAX_EVENTS, vec![place.clone(); MAX_PLACES]);
    for wanted in 0..MAX_EVENTS {
        let reached = reach(&mut run, &full.bytes(), wanted);
        assert_eq!(reached, word(&[]), "{wanted}, {run}");
    }
    for which in 0..MAX_PLACES {
        let mut short = full.clone();
        short.places[which].m -= 1;
        let wanted = run.rng.below(MAX_EVENTS);
        let reached = run.reach(&short.bytes(), wanted);
        assert_eq!(reached, Ok(None), "{which}, {wanted}, {run}");
    }
    let short = beside(&mut run, &place, even(TOP - 1, TOP, TOP));
    assert_eq!(reach(&mut run, &short, 11), Ok(None), "{run}");
    run.finish_with_classes(&[(0, 12 + 64 + 1)], &[("no event", 12), ("none", 64 + 1)]);
}

/// Each event puts the largest number into each place, and all but one take as many: that one
/// leads to each other event. Where it puts a token fewer into any one place, it does so twice.
#[test]
fn largest_numbers_put() {
    let mut run = Run::start("reach_limits::largest_numbers_put");
    for free in 0..MAX_EVENTS {
        let mut place = even(0, TOP, TOP);
        place.outs[free] = 0;
        let mut less = place.clone();
        less.ins[free] -= 1;
        let full = beside(&mut run, &place, place.clone());
        let short = beside(&mut run, &place, less);
        for wanted in (0..MAX_EVENTS).filter(|&wanted| wanted != free) {
            let reached = reach(&mut run, &full, wanted);
            assert_eq!(reached, word(&[free]), "{wanted}, {run}");
            let reached = reach(&mut run, &short, wanted);
            assert_eq!(reached, word(&[free, free]), "{wanted}, {run}");
        }
    }
    run.finish_with_classes(
        &[(0, 12 * 22)],
        &[("1 event", 12 * 11), ("2 events", 12 * 11)],
    );
}

/// In 63 places event p puts the largest number, and event t takes it, at first the initial
/// tokens. Into the other one t puts a third of what the wanted event takes out of it, so t has
/// to occur up to three times.
#[test]
fn largest_numbers_carried() {
    let mut run = Run::start("reach_limits::largest_numbers_carried");
    let events: Vec<usize> = (0..MAX_EVENTS).collect();
    let events = run.rng.shuffled(&events);
    let (low, high) = (events[0].min(events[1]), events[0].max(events[1]));
    let wanted = events[2];
    for (p, t) in [(low, high), (high, low)] {
        let mut piled = even(TOP, TOP, TOP);
        (piled.ins[t], piled.outs[p], piled.outs[wanted]) = (0, 0, 0);
        for (m, p_first, t_first) in [
            (2 * THIRD, vec![t], vec![t]),
            (2 * THIRD - 1, vec![p, t, t], vec![t, p, t]),
            (THIRD - 1, vec![p, p, t, t, t], vec![t, p, t, p, t]),
        ] {
            let mut counted = even(m, 0, 0);
            (counted.ins[t], counted.outs[wanted]) = (THIRD, TOP);
            let bundle = beside(&mut run, &piled, counted);
            let expected = if p < t { p_first } else { t_first };
            let reached = reach(&mut run, &bundle, wanted);
            assert_eq!(reached, word(&expected), "{p} {t} {m}, {run}");
        }
    }
    run.finish_with_classes(
        &[(0, 6)],
        &[("1 event", 2), ("3 events", 2), ("5 events", 2)],
    );
}

/// Each event takes the largest initial tokens out of 63 places, and puts none back: behind it
/// no event is permitted that takes any of them.
#[test]
fn largest_numbers_taken() {
    let mut run = Run::start("reach_limits::largest_numbers_taken");
    for wanted in 0..MAX_EVENTS {
        let leads = (wanted + run.rng.within(1..=11)) % MAX_EVENTS;
        for (taken, expected) in [(0, word(&[leads])), (1, Ok(None)), (TOP, Ok(None))] {
            let (mut emptied, mut filled) = (even(TOP, 0, TOP), even(0, 0, 0));
            emptied.outs[wanted] = taken;
            (filled.ins[leads], filled.outs[wanted]) = (TOP, TOP);
            let bundle = beside(&mut run, &emptied, filled);
            let reached = run.reach(&bundle, wanted);
            assert_eq!(reached, expected, "{leads}, {wanted}, {taken}, {run}");
        }
    }
    run.finish_with_classes(&[(0, 36)], &[("1 event", 12), ("none", 24)]);
}

/// The most permitted words of a search that finds none: eleven events are permitted in any
/// order, and behind five of them the last of 64 places refuses the wanted one for one token.
/// With that token the first word of five leads there, or the last one.
#[test]
fn most_permitted_words() {
    let mut run = Run::start("reach_limits::most_permitted_words");
    let wanted = run.rng.below(MAX_EVENTS);
    let (lowest, highest) = (usize::from(wanted == 0), 11 - usize::from(wanted == 11));
    let bundle = |m, putting: &[usize]| {
        let mut last = even(m, 0, 0);
        putting.iter().for_each(|&event| last.ins[event] = 1);
        last.outs[wanted] = TOP;
        let places = [vec![even(60_000, 3, 5); MAX_PLACES - 1], vec![last]].concat();
        net(MAX_EVENTS, places).bytes()
    };
    let all: Vec<usize> = (0..MAX_EVENTS).collect();
    let none = bundle(TOP - 6, &all);
    assert_eq!(reach(&mut run, &none, wanted), Ok(None), "{run}");
    let (n, mut places) = read_net(&none).expect("a net");
    // Equal places refuse the same.
    places.dedup();
    let permitted = |word: &Vec<u8>| first_refused(n, &places, word).is_none();
    let all_words = (0..=MOST).flat_map(|length| words(n, length));
    assert_eq!(all_words.filter(permitted).count(), 177_156, "{run}");

    for (m, putting, expected) in [
        (TOP - 6, &[highest][..], Ok(None)),
        (TOP - 5, &[highest], word(&[highest; MOST])),
        (TOP - 5, &all, word(&[lowest; MOST])),
        (TOP - 1, &all, word(&[lowest])),
    ] {
        let reached = run.reach(&bundle(m, putting), wanted);
        assert_eq!(reached, expected, "{m} {putting:?}, {run}");
    }
    run.finish_with_classes(&[(0, 5)], &[("none", 2), ("5 events", 2), ("1 event", 1)]);
}

/// The bundle in an edition, in the new one with all its words completed.
fn in_edition(bundle: &Bundle, is_new: bool) -> Bundle {
    let marks = is_new.then(|| vec![true; bundle.words.len()]);
    let bundle = bundle.clone();
    Bundle { marks, ..bundle }
}

/// What follows the last place is not looked at, up to 64,512 bytes in all. With one byte more
/// the bundle is refused with 4, whether or not the wanted event is there, and with 65,536 more
/// than a length that is allowed.
#[test]
fn longest_bundles() {
    let mut run = Run::start("reach_limits::longest_bundles");
    for case in 0..2 * (MOST + 2) {
        let (is_new, length) = (case % 2 == 1, case / 2);
        let goal = Shape::Gathered.goal(&mut run.rng, 3, length);
        let bytes = in_edition(&goal.bundle, is_new).bytes();
        let expected = Ok((length <= MOST).then_some(goal.word));
        assert_eq!(reach(&mut run, &bytes, goal.wanted), expected, "{run}");
        let padding = run.rng.bytes(2 << 16);
        let padded = [bytes.as_slice(), &padding].concat();
        for size in [MAX_BUNDLE_SIZE - 1, MAX_BUNDLE_SIZE] {
            let reached = reach(&mut run, &padded[..size], goal.wanted);
            assert_eq!(reached, expected, "{size}, {run}");
            let reached = reach(&mut run, &padded[..size], 3);
            assert_eq!(reached, refusal(15, 0), "{size}, {run}");
        }
        let (most, more) = (MAX_BUNDLE_SIZE, 1 << 16);
        for size in [most + 1, more, more + bytes.len(), more + most] {
            for wanted in [goal.wanted, 3] {
                let reached = reach(&mut run, &padded[..size], wanted);
                assert_eq!(reached, refusal(4, 0), "{size}, {run}");
            }
        }
    }
    run.finish_with_classes(
        &[(0, 2 * 7 * 3), (15, 2 * 7 * 2), (4, 2 * 7 * 8)],
        &[("no event", 6), ("5 events", 6), ("none", 6)],
    );
}

/// The longest bundles that the judge accepts. In that of the new edition event 1 is permitted
/// behind event 0, and event 2 in its place.
#[test]
fn longest_accepted_bundles() {
    let mut run = Run::start("reach_limits::longest_accepted_bundles");
    let [largest, most_words] = [LARGEST, MOST_WORDS].map(|size| size.certified(&mut run.rng));
    let largest_new = LARGEST_NEW.certified(&mut run.rng);
    let old = [Some(&[][..]), Some(&[]), None];
    let new = [Some(&[][..]), Some(&[0]), Some(&[])];
    for (certified, expected) in [(largest, old), (most_words, old), (largest_new, new)] {
        let bytes = certified.bundle.bytes();
        assert_eq!(bytes.len(), MAX_BUNDLE_SIZE);
        let one_more = [bytes.as_slice(), &[0]].concat();
        for wanted in 0..MAX_EVENTS {
            let expected = expected.get(wanted).copied().flatten();
            let reached = run.reach(&bytes, wanted);
            assert_eq!(reached, Ok(expected.map(<[u8]>::to_vec)), "{wanted}, {run}");
            let reached = reach(&mut run, &one_more, wanted);
            assert_eq!(reached, refusal(4, 0), "{wanted}, {run}");
        }
        assert_eq!(reach(&mut run, &bytes, 11), Ok(None), "{run}");
    }
    run.finish_with_classes(
        &[(0, 3 * 13), (4, 3 * 12)],
        &[("no event", 6), ("1 event", 1), ("none", 29 + 3)],
    );
}

/// So many words over twelve events, with 1,024 events in all.
fn longest_log(run: &mut Run, count: usize) -> Vec<Vec<u8>> {
    let events_before = |word| MAX_LOG_EVENTS * word / count;
    let lengths = (0..count).map(|word| events_before(word + 1) - events_before(word));
    let word = |length| random_word(&mut run.rng, MAX_EVENTS, length..=length);
    lengths.map(word).collect()
}

/// 64 places over twelve events behind a log of 1,024 events, in both editions: the log changes
/// no answer. An event more is refused with 8 at its word, and a place more with 7.
#[test]
fn longest_logs() {
    let mut run = Run::start("reach_limits::longest_logs");
    for (shape, count) in Shape::ALL.into_iter().zip([5, 100, 255]) {
        for length in 0..=MOST + 1 {
            let goal = shape.goal(&mut run.rng, MAX_EVENTS, length);
            let mut places = goal.bundle.places;
            // Enough for each word of six events and the wanted one.
            places.resize(MAX_PLACES, even(36_000, 1_000, 6_000));
            let net = net(MAX_EVENTS, run.rng.shuffled(&places));
            let wanted = goal.wanted;
            let expected = Ok((length <= MOST).then_some(goal.word));
            // Words of five events by the definitions take their time, and this one is known.
            let search = if length < MOST { reach } else { Run::reach };
            let reached = search(&mut run, &net.bytes(), wanted);
            assert_eq!(reached, expected, "{shape:?}, {run}");
            let words = longest_log(&mut run, count);
            assert_eq!(words.concat().len(), MAX_LOG_EVENTS);
            let bundle = Bundle { words, ..net };
            for (is_new, first) in [(false, 12), (true, NEW + 12)] {
                let bundle = in_edition(&bundle, is_new);
                let bytes = bundle.bytes();
                assert_eq!(usize::from(bytes[0]), first);
                let reached = search(&mut run, &bytes, wanted);
                assert_eq!(reached, expected, "{shape:?}, {run}");

                let mut longer = bundle.clone();
                longer.words[count - 1].push(0);
                let last = longer.layout().all(Field::Length)[count - 1].start;
                let reached = reach(&mut run, &longer.bytes(), wanted);
                assert_eq!(reached, refusal(8, last), "{shape:?}, {run}");
                let mut wider = bundle;
                wider.places.push(even(0, 0, 0));
                let places = wider.layout().all(Field::PlaceCount)[0].start;
                let reached = reach(&mut run, &wider.bytes(), wanted);
                assert_eq!(reached, refusal(7, places), "{shape:?}, {run}");
            }
        }
    }
    run.finish_with_classes(
        &[(0, 3 * 7 * 3), (7, 3 * 7 * 2), (8, 3 * 7 * 2)],
        &[("no event", 9), ("5 events", 9), ("none", 9)],
    );
}
