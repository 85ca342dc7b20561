//! Screening: words on nets of bundles that are accepted, and of others.

use differential::bundles::{Bundle, Certificate, SAMPLE_A, SAMPLE_E, SAMPLE_F};
use differential::files::MAX_BUNDLE_SIZE;
use differential::judging::judge;
use differential::nets::{small_certified, Certified};
use differential::places::{first_refused, Place, Refused};
use differential::run::{Outcome, Run};
use differential::screening::{any_net, screen, stopped, Kind};
use reference::Screened;

/// Samples B, C and D are words on the bundle of sample A.
#[test]
fn samples() {
    let mut run = Run::start("screen::samples");
    let permitted = Ok(Screened::Permitted);
    for (bundle, word, expected) in [
        (SAMPLE_A.as_slice(), [0, 1].as_slice(), permitted),
        (&SAMPLE_A, &[1, 0], stopped(1, 0, 1)),
        (&SAMPLE_A, &[0, 0, 0], stopped(2, 1, 1)),
        (&SAMPLE_A, &[], permitted),
        (&SAMPLE_A, &[1], permitted),
        (&SAMPLE_A, &[0, 0, 1], permitted),
        // Both places refuse the fourth event.
        (&SAMPLE_A, &[0, 0, 1, 0], stopped(3, 0, 1)),
        (&SAMPLE_E, &[], permitted),
        (&SAMPLE_E, &[0], stopped(0, 0, 1)),
        // Without a place everything is permitted, also where a certificate is
        // missing.
        (&SAMPLE_F, &[0, 0, 0], permitted),
    ] {
        let outcome = screen(&mut run, bundle, word);
        assert_eq!(outcome, expected, "{bundle:?}, {word:?}, {run}");
    }
    run.finish_with_classes(&[(0, 10)], &[("permitted", 6), ("stopped", 4)]);
}

/// What the certificates of an accepted bundle say to an event after a beginning
/// of a word of its log.
fn certified_answer(certified: &Certified, beginning: &[u8], event: usize) -> Outcome<Screened> {
    let Certified { bundle, rows, .. } = certified;
    let count = |e: usize| beginning.iter().filter(|&&b| usize::from(b) == e).count();
    let row = rows
        .iter()
        .position(|row| (0..bundle.n).all(|e| row.counts[e] == count(e)))
        .expect("a row for each prefix");
    let steps = certified.wrong_continuations();
    let number = steps
        .iter()
        .position(|step| (step.row, step.event) == (row, event));
    match number.map(|number| &bundle.certificates[number]) {
        Some(Certificate::Place(_)) => {
            let counts = &rows[row].counts;
            let lowest = bundle
                .places
                .iter()
                .position(|place| place.surplus(counts, event) < 0)
                .expect("the listed place refuses the step");
            let below_zero = -bundle.places[lowest].surplus(counts, event);
            stopped(beginning.len(), lowest, below_zero as usize)
        }
        // An allowed step, or one that no net refuses.
        _ => Ok(Screened::Permitted),
    }
}

/// Words of an accepted bundle's log, and their beginnings with one event more.
#[test]
fn log_words() {
    let mut run = Run::start("log_words");
    for _ in 0..run.cases(300) {
        let certified = small_certified(&mut run.rng);
        let bundle = &certified.bundle;
        let bytes = bundle.bytes();
        for word in &bundle.words {
            let outcome = screen(&mut run, &bytes, word);
            assert_eq!(outcome, Ok(Screened::Permitted), "{bundle:?}, {run}");
            run.note("a word of the log");
        }
        for _ in 0..20 {
            let longer = Kind::Continued.word(&mut run.rng, bundle);
            let (&event, beginning) = longer.split_last().expect("at least one event");
            let expected = certified_answer(&certified, beginning, event.into());
            let outcome = screen(&mut run, &bytes, &longer);
            assert_eq!(outcome, expected, "{bundle:?}, {longer:?}, {run}");
            run.note("one event more");
        }
    }
    run.finish_with_classes(
        &[],
        &[
            ("a word of the log", 800),
            ("one event more", 6_000),
            ("permitted", 2_000),
            ("stopped", 1_000),
        ],
    );
}

/// Notes what is worth seeing where a word is stopped.
fn note_places(run: &mut Run, bundle: &Bundle, word: &[u8], refused: Refused) {
    let Refused {
        position,
        place,
        shortfall,
    } = refused;
    // What each place refuses first, by itself.
    let alone = |place| first_refused(bundle.n, &[Place::from(place)], word);
    let lower: Vec<Refused> = bundle.places[..place].iter().filter_map(alone).collect();
    let higher: Vec<Refused> = bundle.places[place + 1..]
        .iter()
        .filter_map(alone)
        .collect();
    let same = |other: &Refused| other.position == position;
    let later = |other: &Refused| other.position > position;
    let lacks_more = |other: &Refused| other.shortfall > shortfall;
    if higher.iter().any(same) {
        run.note("a higher place refuses the same step");
    }
    if higher.iter().any(|other| same(other) && lacks_more(other)) {
        run.note("a higher place refuses the same step and lacks more");
    }
    if lower.iter().any(later) {
        run.note("a lower place refuses a later step");
    }
    if lower.iter().any(|other| later(other) && lacks_more(other)) {
        run.note("a lower place refuses a later step and lacks more");
    }
    if higher.iter().any(later) {
        run.note("a higher place refuses a later step");
    }
    if shortfall > 1 {
        run.note("several tokens missing");
    }
    if position + 1 == word.len() {
        run.note("stopped at the last event");
    }
    if position == 0 {
        run.note("stopped at the first event");
    }
    if position > 20 {
        run.note("stopped after more than 20 events");
    }
    let last = &bundle.places[place];
    let event = usize::from(word[position]);
    if last.ins[event] >= last.outs[event] {
        run.note("stopped although as much is put in as taken out");
    }
}

/// Words of every kind on nets that need not fit their logs.
#[test]
fn any_words_on_any_net() {
    let mut run = Run::start("any_words_on_any_net");
    for _ in 0..run.cases(1_500) {
        let (bundle, word) = any_net(&mut run.rng);
        let bytes = bundle.bytes();
        let mut words = Kind::ALL
            .map(|kind| kind.word(&mut run.rng, &bundle))
            .to_vec();
        words.push(word);
        for word in words {
            match screen(&mut run, &bytes, &word) {
                Ok(Screened::Stopped {
                    position,
                    place,
                    shortfall,
                }) => {
                    let refused = Refused {
                        position,
                        place,
                        shortfall,
                    };
                    note_places(&mut run, &bundle, &word, refused);
                }
                outcome => assert_eq!(outcome, Ok(Screened::Permitted), "{run}"),
            }
            if word.is_empty() {
                run.note("the empty word");
            }
        }
    }
    run.finish_with_classes(
        &[(0, 12_000)],
        &[
            ("permitted", 3_000),
            ("stopped", 3_000),
            ("the empty word", 1_500),
            ("several tokens missing", 1_000),
            ("a higher place refuses the same step", 500),
            ("a higher place refuses the same step and lacks more", 200),
            ("a lower place refuses a later step", 500),
            ("a lower place refuses a later step and lacks more", 200),
            ("a higher place refuses a later step", 500),
            ("stopped at the first event", 500),
            ("stopped after more than 20 events", 150),
            ("stopped at the last event", 200),
            ("stopped although as much is put in as taken out", 200),
        ],
    );
}

/// A word with one more event than the net permits, or one that ends just there.
#[test]
fn ends_of_words() {
    let mut run = Run::start("ends_of_words");
    for _ in 0..run.cases(1_000) {
        let (bundle, word) = any_net(&mut run.rng);
        let bytes = bundle.bytes();
        let outcome = screen(&mut run, &bytes, &word);
        let Ok(Screened::Stopped { position, .. }) = outcome else {
            continue;
        };
        let before = screen(&mut run, &bytes, &word[..position]);
        assert_eq!(before, Ok(Screened::Permitted), "{run}");
        let there = screen(&mut run, &bytes, &word[..=position]);
        assert_eq!(there, outcome, "{run}");
        run.note("with and without the refused step");
    }
    run.finish_with_classes(&[], &[("with and without the refused step", 200)]);
}

/// What follows the last place is not looked at, up to the longest bundle.
#[test]
fn bytes_behind_the_last_place() {
    let mut run = Run::start("bytes_behind_the_last_place");
    for _ in 0..run.cases(150) {
        let bundle = match run.rng.below(2) {
            0 => small_certified(&mut run.rng).bundle,
            _ => any_net(&mut run.rng).0,
        };
        let layout = bundle.layout();
        let head = &layout.bytes[..layout.places_end];
        let kind = run.rng.choose(&Kind::ALL);
        let word = kind.word(&mut run.rng, &bundle);
        let expected = screen(&mut run, head, &word);
        let left = MAX_BUNDLE_SIZE - head.len();
        let any = run.rng.within(2..=left - 1);
        for behind in [1, 2, any, left] {
            for noise in [vec![0; behind], vec![255; behind], run.rng.bytes(behind)] {
                let longer = [head, &noise].concat();
                assert_eq!(screen(&mut run, &longer, &word), expected, "{run}");
                run.note("bytes behind the last place");
            }
        }
        let too_long = [head, &run.rng.bytes(left + 1)].concat();
        let refused = screen(&mut run, &too_long, &word).map_err(|refused| refused.number);
        assert_eq!(refused, Err(4), "{run}");
    }
    run.finish_with_classes(
        &[(0, 13 * 150), (4, 150)],
        &[
            ("bytes behind the last place", 12 * 150),
            ("permitted", 300),
            ("stopped", 300),
        ],
    );
}

/// Bundles that are judged and screened: the net of an accepted one permits every
/// word of its log, and one that does not fit stops one of them.
#[test]
fn judged_and_screened() {
    let mut run = Run::start("judged_and_screened");
    for _ in 0..run.cases(1_000) {
        let bundle = match run.rng.below(4) {
            0 => small_certified(&mut run.rng).bundle,
            _ => any_net(&mut run.rng).0,
        };
        let bytes = bundle.bytes();
        let verdict = judge(&mut run, &bytes);
        let mut all_permitted = true;
        for word in &bundle.words {
            all_permitted &= screen(&mut run, &bytes, word) == Ok(Screened::Permitted);
        }
        match verdict {
            Ok(_) => {
                assert!(all_permitted, "{bundle:?}, {run}");
                run.note("accepted");
            }
            Err(refused) => {
                assert_eq!(refused.number == 10, !all_permitted, "{bundle:?}, {run}");
                run.note("refused by the judge, and screened");
            }
        }
    }
    run.finish_with_classes(
        &[(6, 100), (10, 100)],
        &[
            ("accepted", 100),
            ("refused by the judge, and screened", 500),
            ("permitted", 1_000),
            ("stopped", 500),
        ],
    );
}
