//! Screening with two nets: what holds for all nets, from answers of the calls alone.

use differential::bundle_faults::altered;
use differential::bundles::{Bundle, Place, MAX_PLACES};
use differential::run::{Outcome, Run};
use differential::screening::{net, stopped, two_nets, Kind, MAX_WORD_EVENTS};
use reference::Screened;

/// Two nets over the same events, as bundles, and words that are often stopped.
fn nets_and_words(run: &mut Run) -> (Bundle, Bundle, Vec<Vec<u8>>) {
    let (first, second, word) = two_nets(&mut run.rng);
    let kinds = [Kind::Short, Kind::Continued, Kind::Equal];
    let mut words = kinds.map(|kind| kind.word(&mut run.rng, &first)).to_vec();
    words.push(word);
    (first, second, words)
}

fn is_permitted(outcome: Outcome<Screened>) -> bool {
    outcome == Ok(Screened::Permitted)
}

/// What two nets say together, by what each says alone: the earlier stop, and of stops at
/// the same step the first net's. The places of the second are numbered behind the first's.
fn earlier_stop(first_places: usize, first: Screened, second: Screened) -> Outcome<Screened> {
    let second = match second {
        Screened::Permitted => return Ok(first),
        Screened::Stopped {
            position,
            place,
            shortfall,
        } => (position, first_places + place, shortfall),
    };
    match first {
        Screened::Stopped { position, .. } if position <= second.0 => Ok(first),
        _ => stopped(second.0, second.1, second.2),
    }
}

/// Permitted when both permit; else the stop of one of them.
#[test]
fn both_nets() {
    let mut run = Run::start("both_nets");
    for _ in 0..run.cases(1_500) {
        let (first, second, words) = nets_and_words(&mut run);
        let bytes = [first.bytes(), second.bytes()];
        for word in words {
            let alone = bytes.each_ref().map(|bundle| run.screen(bundle, &word));
            let joined = run.screen_joined(&bytes[0], &bytes[1], &word);
            let both = alone.iter().all(|&outcome| is_permitted(outcome));
            assert_eq!(is_permitted(joined), both, "{run}");
            let [alone_first, alone_second] = alone.map(|outcome| outcome.expect("sound"));
            let expected = earlier_stop(first.places.len(), alone_first, alone_second);
            assert_eq!(joined, expected, "{run}");
            match joined {
                Ok(Screened::Stopped { place, .. }) if place < first.places.len() => {
                    assert_eq!(joined, Ok(alone_first), "{run}");
                    run.note("a place of the first");
                }
                Ok(Screened::Stopped { .. }) => run.note("a place of the second"),
                _ => run.note("both permit"),
            }
        }
    }
    run.finish_with_classes(
        &[(0, 18_000)],
        &[
            ("a place of the first", 1_200),
            ("a place of the second", 800),
            ("both permit", 1_200),
        ],
    );
}

/// The position of a stop.
fn position(outcome: Outcome<Screened>) -> Option<usize> {
    match outcome.expect("sound bundles and events") {
        Screened::Permitted => None,
        Screened::Stopped { position, .. } => Some(position),
    }
}

/// In another order the same words are permitted, and the same step is refused. A net
/// that is joined to itself answers as alone.
#[test]
fn order_and_itself() {
    let mut run = Run::start("order_and_itself");
    for _ in 0..run.cases(1_000) {
        let (first, second, words) = nets_and_words(&mut run);
        let (first, second) = (first.bytes(), second.bytes());
        for word in words {
            let joined = run.screen_joined(&first, &second, &word);
            let turned = run.screen_joined(&second, &first, &word);
            assert_eq!(position(joined), position(turned), "{run}");
            let itself = run.screen_joined(&first, &first, &word);
            assert_eq!(itself, run.screen(&first, &word), "{run}");
        }
    }
    run.finish_with_classes(&[(0, 16_000)], &[("permitted", 4_000), ("stopped", 6_000)]);
}

/// A net of these places, over the events of a bundle.
fn net_of(like: &Bundle, parts: &[&[Place]]) -> Vec<u8> {
    net(like.n, parts.concat()).bytes()
}

/// Three nets, grouped either way, answer as the net of all their places.
#[test]
fn grouping() {
    let mut run = Run::start("grouping");
    for _ in 0..run.cases(1_000) {
        let (a, b, words) = nets_and_words(&mut run);
        let most = MAX_PLACES / 3;
        let part = |places: &[Place], from: usize| {
            let from = from.min(places.len());
            places[from..places.len().min(from + most)].to_vec()
        };
        // The third net has further places of the second, or some of them again.
        let parts = [
            part(&a.places, 0),
            part(&b.places, 0),
            part(&b.places, run.rng.choose(&[1, most])),
        ];
        let [one, two, three] = parts.each_ref().map(Vec::as_slice);
        for word in words {
            let (front, last) = (net_of(&a, &[one, two]), net_of(&a, &[three]));
            let to_the_left = run.screen_joined(&front, &last, &word);
            let (first, back) = (net_of(&a, &[one]), net_of(&a, &[two, three]));
            let to_the_right = run.screen_joined(&first, &back, &word);
            assert_eq!(to_the_left, to_the_right, "{run}");
            let all = run.screen(&net_of(&a, &[one, two, three]), &word);
            assert_eq!(to_the_left, all, "{run}");
        }
    }
    run.finish_with_classes(&[(0, 12_000)], &[("permitted", 2_500), ("stopped", 4_000)]);
}

/// With a net of no places, in front or behind, every answer is that of screening alone:
/// of a bundle that is damaged too, and of every word.
#[test]
fn no_places() {
    let mut run = Run::start("no_places");
    for _ in 0..run.cases(1_500) {
        let (bundle, _, word) = two_nets(&mut run.rng);
        let bytes = match run.rng.below(4) {
            0 => altered(&mut run.rng, &bundle),
            1 if run.rng.below(10) == 0 => Vec::new(),
            _ => bundle.bytes(),
        };
        // Of the bundle's events, where it has an allowed number of them.
        let n = match bytes.first() {
            Some(&n @ 1..=12) => n,
            Some(&first @ 129..=140) => first - 128,
            _ => run.rng.within(1..=12) as u8,
        };
        let empty = match run.rng.below(4) {
            0 => vec![n, 0, 0],
            1 => vec![n, 2, 1, 0, 3, 0, 0, 0, 0, 77],
            2 => vec![128 + n, 0, 0],
            _ => vec![128 + n, 2, 1, 1, 0, 3, 0, 0, 0, 0, 0, 77],
        };
        let mut word = word;
        match run.rng.below(8) {
            0 => word.push(run.rng.within(bundle.n..=255) as u8),
            1 if run.rng.below(5) == 0 => word.resize(MAX_WORD_EVENTS + 1, 0),
            _ => (),
        }
        let alone = run.screen(&bytes, &word);
        let behind = run.screen_joined(&bytes, &empty, &word);
        let in_front = run.screen_joined(&empty, &bytes, &word);
        assert_eq!((behind, in_front), (alone, alone), "{run}");
    }
    run.finish_with_classes(
        &[(4, 30), (6, 60), (7, 60), (14, 30), (15, 200)],
        &[("permitted", 800), ("stopped", 800)],
    );
}

/// A place with its numbers multiplied, where they fit into two bytes.
fn multiplied(place: &Place, factor: u16) -> Option<Place> {
    let times = |number: &u16| number.checked_mul(factor);
    Some(Place {
        m: times(&place.m)?,
        ins: place.ins.iter().map(times).collect::<Option<_>>()?,
        outs: place.outs.iter().map(times).collect::<Option<_>>()?,
    })
}

/// A place whose numbers are multiplied refuses what it refused, in either net. With all
/// places multiplied, the shortfall is too.
#[test]
fn multiplied_places() {
    let mut run = Run::start("multiplied_places");
    for _ in 0..run.cases(3_000) {
        let (first, second, word) = two_nets(&mut run.rng);
        let factor = run.rng.choose(&[1, 2, 3, 10, 100]);
        let times = |bundle: &Bundle| {
            let places = bundle.places.iter().map(|place| multiplied(place, factor));
            Some(net(bundle.n, places.collect::<Option<_>>()?))
        };
        let (Some(more_first), Some(more_second)) = (times(&first), times(&second)) else {
            continue;
        };
        let joined = run.screen_joined(&first.bytes(), &second.bytes(), &word);
        let all = run.screen_joined(&more_first.bytes(), &more_second.bytes(), &word);
        let expected = match joined.expect("sound bundles and events") {
            Screened::Permitted => Ok(Screened::Permitted),
            Screened::Stopped {
                position,
                place,
                shortfall,
            } => stopped(position, place, shortfall * usize::from(factor)),
        };
        assert_eq!(all, expected, "times {factor}, {run}");

        // Any one of them.
        let mut one = [first.clone(), second.clone()];
        let side = run.rng.below(2);
        let more = [&more_first, &more_second][side];
        if let Some(number) = (!more.places.is_empty()).then(|| run.rng.below(more.places.len())) {
            one[side].places[number] = more.places[number].clone();
            let outcome = run.screen_joined(&one[0].bytes(), &one[1].bytes(), &word);
            assert_eq!(position(outcome), position(joined), "times {factor}, {run}");
            run.note("one place multiplied");
        }
        run.note("all places multiplied");
    }
    run.finish_with_classes(
        &[],
        &[
            ("all places multiplied", 800),
            ("one place multiplied", 500),
            ("permitted", 400),
            ("stopped", 600),
        ],
    );
}

/// The empty word is permitted by every two nets.
#[test]
fn the_empty_word() {
    let mut run = Run::start("the_empty_word");
    for _ in 0..run.cases(300) {
        let (first, second, _) = two_nets(&mut run.rng);
        let joined = run.screen_joined(&first.bytes(), &second.bytes(), &[]);
        assert!(is_permitted(joined), "{run}");
    }
    run.finish(&[(0, 300)]);
}
