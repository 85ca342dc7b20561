//! Screening: the longest words, the largest nets and the largest numbers.

use differential::bundles::{Place, MAX_PLACES};
use differential::files::MAX_BUNDLE_SIZE;
use differential::limits::{LARGEST, MOST_WORDS};
use differential::logs::{random_word, MAX_EVENTS};
use differential::run::{refusal, Run};
use differential::screening::{net, screen, stopped, MAX_WORD_EVENTS};
use reference::Screened;

/// A place over one event.
fn over_one_event(m: u16, puts: u16, takes: u16) -> Place {
    Place {
        m,
        ins: vec![puts],
        outs: vec![takes],
    }
}

/// Each event takes a token, so the initial ones say where the word is stopped: at
/// every kind of position of the longest word, and not at all.
#[test]
fn positions_of_the_longest_word() {
    let mut run = Run::start("positions_of_the_longest_word");
    let longest = vec![0; MAX_WORD_EVENTS];
    for m in [
        0, 1, 2, 254, 255, 256, 257, 32_767, 32_768, 65_279, 65_280, 65_533, 65_534, 65_535,
    ] {
        let bytes = net(1, vec![over_one_event(m, 0, 1)]).bytes();
        let outcome = screen(&mut run, &bytes, &longest);
        let expected = match usize::from(m) {
            MAX_WORD_EVENTS => Ok(Screened::Permitted),
            position => stopped(position, 0, 1),
        };
        assert_eq!(outcome, expected, "{run}");
        let too_long = screen(&mut run, &bytes, &vec![0; MAX_WORD_EVENTS + 1]);
        assert_eq!(too_long, refusal(14, MAX_WORD_EVENTS), "{run}");
    }
    run.finish_with_classes(&[(0, 14), (14, 14)], &[("permitted", 1), ("stopped", 13)]);
}

/// The first event that is not there, at every kind of position of the longest
/// word, with others behind it.
#[test]
fn wrong_events_in_the_longest_word() {
    let mut run = Run::start("wrong_events_in_the_longest_word");
    for n in [1, 2, 12] {
        // Every event is refused, so nothing may be replayed before all are checked.
        let refusing = Place {
            m: 0,
            ins: vec![0; n],
            outs: vec![1; n],
        };
        let bytes = net(n, vec![refusing]).bytes();
        for position in [0, 1, 255, 256, 65_533, 65_534] {
            for behind in [0, 1, 300] {
                let mut word = random_word(&mut run.rng, n, MAX_WORD_EVENTS..=MAX_WORD_EVENTS);
                let end = (position + behind).min(MAX_WORD_EVENTS - 1);
                word[end] = 255;
                word[position] = run.rng.choose(&[n as u8, 13, 128, 255]);
                let outcome = screen(&mut run, &bytes, &word);
                assert_eq!(outcome, refusal(15, position), "{run}");
            }
        }
    }
    run.finish(&[(15, 3 * 6 * 3)]);
}

/// The tokens pass 32 bits with a sign: 65,535 initial ones and as many for each
/// event. And they come down to the last one.
#[test]
fn largest_numbers() {
    let mut run = Run::start("screen_limits::largest_numbers");
    let largest = 65_535;
    let permitted = Ok(Screened::Permitted);
    for (m, puts, takes, expected) in [
        (largest, largest, 0, permitted),
        (0, largest, 0, permitted),
        (largest, largest, largest, permitted),
        (largest, 0, 1, permitted),
        (largest, 0, 2, stopped(32_767, 0, 1)),
        (largest, 0, largest, stopped(1, 0, 65_535)),
        (largest - 1, 0, largest, stopped(0, 0, 1)),
        (largest - 1, largest, largest, stopped(0, 0, 1)),
        (0, largest, 1, stopped(0, 0, 1)),
        (0, largest, largest, stopped(0, 0, 65_535)),
        (255, largest, largest, stopped(0, 0, 65_280)),
        (1, largest, 1, permitted),
    ] {
        let bytes = net(1, vec![over_one_event(m, puts, takes)]).bytes();
        let outcome = screen(&mut run, &bytes, &vec![0; MAX_WORD_EVENTS]);
        assert_eq!(outcome, expected, "{m} {puts} {takes}, {run}");
    }

    // Event 0 puts tokens in, event 1 takes them out: as many times as it can, and
    // once more. The tokens are then fewer than zero only by this last step.
    for (ups, downs, expected) in [
        (32_767, 32_768, permitted),
        (32_767, 32_767, permitted),
        (32_766, 32_768, stopped(65_533, 0, 65_535)),
        (40_000, 25_535, permitted),
        (1, 65_534, stopped(3, 0, 65_535)),
        (0, 65_535, stopped(1, 0, 65_535)),
    ] {
        let place = Place {
            m: largest,
            ins: vec![largest, 0],
            outs: vec![0, largest],
        };
        let word = [vec![0; ups], vec![1; downs]].concat();
        let outcome = screen(&mut run, &net(2, vec![place]).bytes(), &word);
        assert_eq!(outcome, expected, "{ups} {downs}, {run}");
    }

    // The same with one token fewer taken out: so many are left over each time.
    for ups in [0, 1, 30_000, 32_766] {
        let place = Place {
            m: largest,
            ins: vec![largest, 0],
            outs: vec![0, largest - 1],
        };
        let left = ups + 1;
        let word = [vec![0; ups], vec![1; left + 1]].concat();
        let outcome = screen(&mut run, &net(2, vec![place]).bytes(), &word);
        let expected = stopped(ups + left, 0, 65_534 - left);
        assert_eq!(outcome, expected, "{ups}, {run}");
    }
    run.finish_with_classes(&[(0, 22)], &[("permitted", 8), ("stopped", 14)]);
}

/// 64 places over twelve events and the longest word: permitted, or stopped by any
/// one of them anywhere.
#[test]
fn largest_net() {
    let mut run = Run::start("largest_net");
    let word = random_word(&mut run.rng, MAX_EVENTS, MAX_WORD_EVENTS..=MAX_WORD_EVENTS);
    for _ in 0..run.cases(6) {
        // Each event puts in at least as many tokens as it takes out.
        let mut places = Vec::new();
        for _ in 0..MAX_PLACES {
            let outs: Vec<u16> = (0..MAX_EVENTS)
                .map(|_| run.rng.within(0..=30_000) as u16)
                .collect();
            let more = |out: &u16| out + run.rng.within(0..=30_000) as u16;
            let ins = outs.iter().map(more).collect();
            let m = 30_000;
            places.push(Place { m, ins, outs });
        }
        let outcome = run.screen(&net(MAX_EVENTS, places.clone()).bytes(), &word);
        assert_eq!(outcome, Ok(Screened::Permitted), "{run}");

        // One place has tokens only up to a position, and all places behind it up to
        // a later one.
        let place = run.rng.below(MAX_PLACES);
        let position = run.rng.within(0..=60_000);
        for (number, other) in places.iter_mut().enumerate().skip(place) {
            let ends = position + number - place;
            *other = Place {
                m: ends as u16,
                ins: vec![0; MAX_EVENTS],
                outs: vec![1; MAX_EVENTS],
            };
        }
        let bytes = net(MAX_EVENTS, places).bytes();
        let expected = stopped(position, place, 1);
        assert_eq!(run.screen(&bytes, &word), expected, "{run}");
    }
    run.finish_with_classes(&[(0, 12)], &[("permitted", 6), ("stopped", 6)]);
}

/// The largest bundles that the judge accepts: every word of the log is permitted,
/// and event 0 occurs at most 253 times.
#[test]
fn largest_bundles() {
    let mut run = Run::start("screen_limits::largest_bundles");
    for size in [LARGEST, MOST_WORDS] {
        let bundle = size.certified(&mut run.rng).bundle;
        let bytes = bundle.bytes();
        assert_eq!(bytes.len(), MAX_BUNDLE_SIZE);
        for word in &bundle.words {
            let outcome = run.screen(&bytes, word);
            assert_eq!(outcome, Ok(Screened::Permitted), "{word:?}, {run}");
        }
        let outcome = screen(&mut run, &bytes, &vec![0; MAX_WORD_EVENTS]);
        let position = outcome.map(|screened| match screened {
            Screened::Permitted => None,
            Screened::Stopped { position, .. } => Some(position),
        });
        assert_eq!(position, Ok(Some(size.zeros)), "{run}");
        let one_more = [bytes.as_slice(), &[0]].concat();
        assert_eq!(screen(&mut run, &one_more, &[0]), refusal(4, 0), "{run}");
    }
    run.finish_with_classes(
        &[(0, 252 + 255 + 2), (4, 2)],
        &[("permitted", 252 + 255), ("stopped", 2)],
    );
}
