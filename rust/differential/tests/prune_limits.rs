//! Pruning: every number of places, and bundles as large as they can be.

use differential::bundles::{Bundle, Certificate, Place, MAX_PLACES};
use differential::files::MAX_BUNDLE_SIZE;
use differential::limits::{LARGEST, MIDDLE, MOST_WORDS};
use differential::logs::{MAX_EVENTS, TABLE};
use differential::nets::Certified;
use differential::pruning::{idle_count, name_lowest, prune, prune_accepted, pruned};
use differential::rewriting::{rewrite_as, Rewrite};
use differential::run::{refusal, Run};

/// A place that refuses every event, with numbers of its own.
fn place(n: usize, number: usize) -> Place {
    Place {
        m: number as u16,
        ins: vec![257 * number as u16; n],
        outs: vec![65_535 - number as u16; n],
    }
}

/// No word, and so a certificate for each event: these name these places.
fn empty_log(n: usize, places: Vec<Place>, named: &[usize]) -> Bundle {
    assert_eq!(named.len(), n);
    let certificates = named.iter().map(|&place| Certificate::Place(place as u8));
    Bundle {
        n,
        words: Vec::new(),
        marks: None,
        places,
        certificates: certificates.collect(),
    }
}

/// Of every number of places each one alone.
#[test]
fn one_stays() {
    let mut run = Run::start("one_stays");
    for count in 1..=MAX_PLACES {
        let places: Vec<Place> = (0..count).map(|number| place(1, number)).collect();
        for named in 0..count {
            let bundle = empty_log(1, places.clone(), &[named]);
            let result = prune_accepted(&mut run, &bundle.bytes());
            let expected = empty_log(1, vec![place(1, named)], &[0]);
            assert!(result == expected.bytes(), "{named} of {count}, {run}");
        }
    }
    run.finish(&[(0, 64 * 65 / 2)]);
}

/// Of 64 places each two, named in both orders.
#[test]
fn two_stay() {
    let mut run = Run::start("two_stay");
    let places: Vec<Place> = (0..MAX_PLACES).map(|number| place(2, number)).collect();
    for high in 1..MAX_PLACES {
        for low in 0..high {
            for (named, numbers) in [([low, high], [0, 1]), ([high, low], [1, 0])] {
                let bundle = empty_log(2, places.clone(), &named);
                let result = prune_accepted(&mut run, &bundle.bytes());
                let expected = empty_log(2, vec![place(2, low), place(2, high)], &numbers);
                assert!(result == expected.bytes(), "{named:?}, {run}");
            }
        }
    }
    run.finish(&[(0, 64 * 63)]);
}

/// With every event count, so that a place has 6 to 50 bytes: random places of 64.
#[test]
fn every_event_count() {
    let mut run = Run::start("prune::every_event_count");
    for n in 1..=MAX_EVENTS {
        let places: Vec<Place> = (0..MAX_PLACES).map(|number| place(n, number)).collect();
        for _ in 0..run.cases(20) {
            let named: Vec<usize> = (0..n).map(|_| run.rng.below(MAX_PLACES)).collect();
            let mut left = named.clone();
            left.sort_unstable();
            left.dedup();
            let new_number = |place| left.binary_search(place).expect("one that is left");
            let expected = empty_log(
                n,
                left.iter().map(|&number| place(n, number)).collect(),
                &named.iter().map(new_number).collect::<Vec<usize>>(),
            );
            let bundle = empty_log(n, places.clone(), &named);
            let result = prune_accepted(&mut run, &bundle.bytes());
            assert!(result == expected.bytes(), "{named:?}, {run}");
        }
    }
    run.finish(&[(0, 240)]);
}

/// The word 0 … 0 leaves event 1 out in 65 rows: so many certificates that each of 64 places
/// is named. `skipped` is not.
fn all_named_but(skipped: Option<usize>) -> Bundle {
    let refuses_1 = |number: usize| Place {
        m: number as u16,
        ins: vec![0; 2],
        outs: vec![0, 65_535],
    };
    let ends = Place {
        m: 64,
        ins: vec![0; 2],
        outs: vec![1, 65_535],
    };
    let mut places: Vec<Place> = (0..MAX_PLACES - 1).map(refuses_1).collect();
    places.push(ends);
    // From the last place to the first, and then once more the last.
    let rows = (0..MAX_PLACES).rev().chain([MAX_PLACES - 1]);
    let named = rows.map(|place| match skipped {
        Some(skipped) if skipped == place => MAX_PLACES - 1,
        _ => place,
    });
    let mut certificates: Vec<Certificate> =
        named.map(|place| Certificate::Place(place as u8)).collect();
    // Event 0 after the word: only the last place refuses it.
    certificates.insert(MAX_PLACES, Certificate::Place(MAX_PLACES as u8 - 1));
    Bundle {
        n: 2,
        words: vec![vec![0; MAX_PLACES]],
        marks: None,
        places,
        certificates,
    }
}

/// 64 places that are all named stay as they are; else the one that is not goes, and the
/// certificates that name those behind it name one less.
#[test]
fn all_stay_or_all_but_one() {
    let mut run = Run::start("all_stay_or_all_but_one");
    let all = all_named_but(None).bytes();
    assert_eq!(prune(&mut run, &all), Ok(all), "{run}");
    for skipped in 0..MAX_PLACES - 1 {
        let bundle = all_named_but(Some(skipped));
        let mut expected = bundle.clone();
        expected.places.remove(skipped);
        for certificate in &mut expected.certificates {
            if let Certificate::Place(place) = certificate {
                *place -= u8::from(usize::from(*place) > skipped);
            }
        }
        let result = prune_accepted(&mut run, &bundle.bytes());
        assert!(result == expected.bytes(), "without {skipped}, {run}");
    }
    run.finish(&[(0, 8 + 63), (3, 4), (5, 12)]);
}

/// The largest bundles, whose certificates name any place or few: the whole length is
/// needed and one byte less is refused. The definitions would take long for their judging.
#[test]
fn large_bundles() {
    let mut run = Run::start("prune::large_bundles");
    for size in [MIDDLE, LARGEST, MOST_WORDS] {
        for few in [false, true] {
            let mut certified = size.certified(&mut run.rng);
            if few {
                name_lowest(&mut certified);
            }
            let Certified { bundle, counts, .. } = certified;
            let bytes = bundle.bytes();
            assert!(bytes.len() == MAX_BUNDLE_SIZE || size.n == MIDDLE.n);
            let judged = run.judge(&bytes, &[0; TABLE]);
            assert_eq!(judged.outcome, Ok(counts), "{run}");

            let expected = pruned(&bundle).bytes();
            let dropped = idle_count(&bundle);
            assert_eq!(expected.len(), bytes.len() - dropped * (2 + 4 * size.n));
            assert!(dropped > 0 || !few, "{run}");
            let judged_again = run.judge(&expected, &[0; TABLE]);
            assert_eq!(judged_again.outcome, Ok(counts), "{run}");
            assert!(judged_again.table == judged.table, "{run}");
            let expected = Ok(expected);
            rewrite_as(&mut run, Rewrite::Prune, &bytes, &expected, &judged.table);
        }
    }
    run.finish(&[(0, 6 * 10), (3, 6 * 4), (5, 6 * 12)]);
}

/// No net without a place is accepted, nor one that no certificate names: an event after the
/// longest word has no weights. So no result has no place.
#[test]
fn no_place_at_all() {
    let mut run = Run::start("no_place_at_all");
    for n in 1..=MAX_EVENTS {
        // No place to name, and then weights that can't hold, with and without a place.
        let no_places = [n as u8, 0, 0, 0, 0];
        assert_eq!(prune(&mut run, &no_places), refusal(7, 4), "{run}");
        let weights = [1, 1, 0, 0].repeat(n);
        for places in [vec![], vec![place(n, 3)], vec![place(n, 3); MAX_PLACES]] {
            let head = empty_log(n, places, &vec![0; n]).layout();
            let bundle = [&head.bytes[..head.places_end], &weights].concat();
            assert_eq!(prune(&mut run, &bundle), refusal(12, 0), "{run}");
        }
    }
    run.finish(&[(5, 12 * 48), (7, 12 * 12), (12, 12 * 36)]);
}
