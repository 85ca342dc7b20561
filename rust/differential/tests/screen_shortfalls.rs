//! Screening: how many tokens were missing where a word is stopped.

use differential::bundles::Place;
use differential::logs::MAX_EVENTS;
use differential::rng::Rng;
use differential::run::Run;
use differential::screening::{any_net, net, screen, stopped, Kind};
use reference::Screened;

/// The most tokens that an event can take out, and so the largest shortfall.
const LARGEST: usize = 65_535;

/// Notes what is worth seeing of a shortfall.
fn note_size(run: &mut Run, shortfall: usize) {
    run.note(match shortfall {
        1 => "1 token missing",
        LARGEST => "65,535 tokens missing",
        _ if shortfall % 256 == 0 => "a multiple of 256 missing",
        _ => "several tokens missing",
    });
}

/// Every shortfall that there can be, at the first event of a word. The place may
/// have tokens, and the event may put some in.
#[test]
fn every_shortfall() {
    let mut run = Run::start("every_shortfall");
    for shortfall in 1..=LARGEST {
        let n = run.rng.within(1..=MAX_EVENTS);
        let event = run.rng.below(n);
        let any = run.rng.within(0..=LARGEST - shortfall);
        let tokens = run.rng.choose(&[0, any]);
        let mut place = Place {
            m: tokens as u16,
            ins: run.rng.items(n),
            outs: run.rng.items(n),
        };
        place.outs[event] = (tokens + shortfall) as u16;
        let outcome = screen(&mut run, &net(n, vec![place]).bytes(), &[event as u8]);
        assert_eq!(outcome, stopped(0, 0, shortfall), "{run}");
        note_size(&mut run, shortfall);
        if tokens > 0 {
            run.note("some tokens are there");
        }
    }
    run.finish_with_classes(
        &[(0, LARGEST)],
        &[
            ("1 token missing", 1),
            ("65,535 tokens missing", 1),
            ("a multiple of 256 missing", 255),
            ("several tokens missing", LARGEST - 257),
            ("some tokens are there", 20_000),
        ],
    );
}

/// Event 0 puts tokens in, and event 1 takes some out as often as it can, and once
/// more: what is left then counts.
#[test]
fn tokens_that_are_left() {
    let mut run = Run::start("tokens_that_are_left");
    for _ in 0..run.cases(3_000) {
        let any = run.rng.within(1..=200);
        let ups = run.rng.choose(&[0, 1, any]);
        let (m, puts) = (run.rng.within(0..=LARGEST), run.rng.within(0..=LARGEST));
        // So many that the word gets no longer than 1,000 events more.
        let takes = run.rng.within((m + ups * puts) / 1_000 + 1..=LARGEST);
        let (m, puts) = run.rng.choose(&[(m, puts), (m, puts), (0, takes)]);
        let tokens = m + ups * puts;
        let downs = tokens / takes;
        let left = tokens % takes;
        let place = Place {
            m: m as u16,
            ins: vec![puts as u16, 0],
            outs: vec![0, takes as u16],
        };
        let word = [vec![0; ups], vec![1; downs + 1]].concat();
        let outcome = screen(&mut run, &net(2, vec![place]).bytes(), &word);
        assert_eq!(outcome, stopped(ups + downs, 0, takes - left), "{run}");
        run.note(match (downs, left) {
            (_, 0) => "no token is left",
            (0, _) => "never enough tokens",
            _ => "some tokens are left",
        });
    }
    run.finish_with_classes(
        &[(0, 3_000)],
        &[
            ("no token is left", 500),
            ("never enough tokens", 50),
            ("some tokens are left", 1_000),
        ],
    );
}

/// A place that permits the events of a word, all different, up to this position,
/// and lacks so many tokens there. What it puts in and takes out behind is any
/// number.
fn refusing(rng: &mut Rng, word: &[u8], position: usize, shortfall: usize) -> Place {
    let n = word.len();
    // More tokens than this, and the event could not lack so many.
    let most = LARGEST - shortfall;
    let mut tokens = rng.within(0..=most);
    let mut place = Place {
        m: tokens as u16,
        ins: rng.items(n),
        outs: rng.items(n),
    };
    for &event in &word[..position] {
        let out = rng.within(0..=tokens);
        tokens -= out;
        let puts = rng.within(0..=most - tokens);
        tokens += puts;
        place.outs[usize::from(event)] = out as u16;
        place.ins[usize::from(event)] = puts as u16;
    }
    place.outs[usize::from(word[position])] = (tokens + shortfall) as u16;
    place
}

/// Places that each refuse a step with a shortfall of their own: the first such step
/// is named, of its places the lowest, and what this one lacks.
#[test]
fn several_places() {
    let mut run = Run::start("screen_shortfalls::several_places");
    for _ in 0..run.cases(5_000) {
        let n = run.rng.within(2..=MAX_EVENTS);
        let events: Vec<u8> = (0..n as u8).collect();
        let word = run.rng.shuffled(&events);
        let count = run.rng.choose(&[2, 3, 8, 64]);
        let first = run.rng.below(n);
        // The position of the first step that each place refuses, and its shortfall.
        let refusals: Vec<(usize, usize)> = (0..count)
            .map(|_| {
                let position = run.rng.within(first..=n - 1);
                let any = run.rng.within(1..=LARGEST);
                let multiple = 256 * run.rng.within(1..=255);
                let shortfall = run.rng.choose(&[1, 2, any, any, multiple, LARGEST]);
                (position, shortfall)
            })
            .collect();
        let places: Vec<Place> = refusals
            .iter()
            .map(|&(position, shortfall)| refusing(&mut run.rng, &word, position, shortfall))
            .collect();

        let position = refusals.iter().map(|&(position, _)| position).min();
        let position = position.expect("there are places");
        let lowest = refusals.iter().position(|&(at, _)| at == position);
        let lowest = lowest.expect("one of them");
        let shortfall = refusals[lowest].1;
        let puts = places[lowest].ins[usize::from(word[position])];
        let outcome = screen(&mut run, &net(n, places).bytes(), &word);
        assert_eq!(outcome, stopped(position, lowest, shortfall), "{run}");

        note_size(&mut run, shortfall);
        if puts > 0 {
            run.note("tokens are put in by the refused event");
        }
        let (lower, higher) = (&refusals[..lowest], &refusals[lowest + 1..]);
        for (class, others, same_step, more) in [
            ("the same step, less missing", higher, true, false),
            ("the same step, more missing", higher, true, true),
            ("a higher place later, less missing", higher, false, false),
            ("a higher place later, more missing", higher, false, true),
            ("a lower place later, less missing", lower, false, false),
            ("a lower place later, more missing", lower, false, true),
        ] {
            let is_such = |&(at, lacks): &(usize, usize)| {
                let other = if more {
                    lacks > shortfall
                } else {
                    lacks < shortfall
                };
                (at == position) == same_step && other
            };
            if others.iter().any(is_such) {
                run.note(class);
            }
        }
    }
    run.finish_with_classes(
        &[(0, 5_000)],
        &[
            ("1 token missing", 500),
            ("65,535 tokens missing", 500),
            ("a multiple of 256 missing", 500),
            ("several tokens missing", 1_500),
            ("tokens are put in by the refused event", 4_500),
            ("the same step, less missing", 500),
            ("the same step, more missing", 500),
            ("a higher place later, less missing", 500),
            ("a higher place later, more missing", 500),
            ("a lower place later, less missing", 500),
            ("a lower place later, more missing", 500),
        ],
    );
}

/// What the refused event puts in does not count, however much it is.
#[test]
fn puts_of_the_refused_event() {
    let mut run = Run::start("puts_of_the_refused_event");
    for _ in 0..run.cases(500) {
        let n = run.rng.within(1..=MAX_EVENTS);
        let word: Vec<u8> = (0..n as u8).collect();
        let position = run.rng.below(n);
        let shortfall = run.rng.within(1..=LARGEST);
        let mut place = refusing(&mut run.rng, &word, position, shortfall);
        let out = usize::from(place.outs[position]);
        for puts in [0, 1, shortfall - 1, shortfall, out - 1, out, LARGEST] {
            place.ins[position] = puts as u16;
            let outcome = screen(&mut run, &net(n, vec![place.clone()]).bytes(), &word);
            assert_eq!(outcome, stopped(position, 0, shortfall), "{puts}, {run}");
        }
    }
    run.finish_with_classes(&[(0, 7 * 500)], &[("stopped", 7 * 500)]);
}

/// With so many initial tokens more the place permits the step, and with all but one
/// of them it lacks just that one.
#[test]
fn initial_tokens_that_make_up_for_it() {
    let mut run = Run::start("initial_tokens_that_make_up_for_it");
    for _ in 0..run.cases(1_500) {
        let (bundle, word) = any_net(&mut run.rng);
        let kind = run.rng.choose(&Kind::ALL);
        let other = kind.word(&mut run.rng, &bundle);
        for word in [word, other] {
            let Ok(Screened::Stopped {
                position,
                place,
                shortfall,
            }) = screen(&mut run, &bundle.bytes(), &word)
            else {
                continue;
            };
            let enough = usize::from(bundle.places[place].m) + shortfall;
            if enough > LARGEST {
                run.note("more than two bytes can hold");
                continue;
            }
            let mut richer = bundle.clone();
            richer.places[place].m = (enough - 1) as u16;
            let outcome = screen(&mut run, &richer.bytes(), &word);
            assert_eq!(outcome, stopped(position, place, 1), "{bundle:?}, {run}");

            richer.places[place].m = enough as u16;
            match screen(&mut run, &richer.bytes(), &word) {
                Ok(Screened::Stopped {
                    position: next,
                    place: next_place,
                    ..
                }) => {
                    let later = (next, next_place) > (position, place);
                    assert!(later, "{next} {next_place}, {bundle:?}, {run}");
                    run.note("stopped later, or by a higher place");
                }
                outcome => {
                    assert_eq!(outcome, Ok(Screened::Permitted), "{bundle:?}, {run}");
                    run.note("permitted then");
                }
            }
        }
    }
    run.finish_with_classes(
        &[],
        &[
            ("more than two bytes can hold", 10),
            ("stopped later, or by a higher place", 200),
            ("permitted then", 50),
        ],
    );
}

/// Numbers below 256 that are written with the high byte first: each is multiplied by
/// 256, and so is the shortfall.
#[test]
fn bytes_in_the_other_order() {
    let mut run = Run::start("bytes_in_the_other_order");
    for _ in 0..run.cases(1_000) {
        let (mut bundle, word) = any_net(&mut run.rng);
        for place in &mut bundle.places {
            place.m %= 256;
            let numbers = place.ins.iter_mut().chain(&mut place.outs);
            numbers.for_each(|number| *number %= 256);
        }
        let outcome = screen(&mut run, &bundle.bytes(), &word);
        for place in &mut bundle.places {
            place.m = place.m.swap_bytes();
            let numbers = place.ins.iter_mut().chain(&mut place.outs);
            numbers.for_each(|number| *number = number.swap_bytes());
        }
        let expected = match outcome {
            Ok(Screened::Stopped {
                position,
                place,
                shortfall,
            }) => stopped(position, place, 256 * shortfall),
            _ => outcome,
        };
        let swapped = screen(&mut run, &bundle.bytes(), &word);
        assert_eq!(swapped, expected, "{bundle:?}, {run}");
    }
    run.finish_with_classes(&[(0, 2_000)], &[("permitted", 100), ("stopped", 500)]);
}
