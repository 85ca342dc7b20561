//! Judging: bundles with one fault or several, parts in another order, and noise.

use differential::bundle_faults::{altered, BundleFault};
use differential::bundles::{Bundle, Certificate};
use differential::judging::judge;
use differential::nets::{certified, small_certified, small_log, Certified};
use differential::run::Run;

/// A bundle to make a fault in: many of them have certificates of both kinds.
fn sound(run: &mut Run) -> Certified {
    for _ in 0..10 {
        let certified = small_certified(&mut run.rng);
        if certified.counts.by_place > 0 && certified.counts.by_weights > 0 {
            return certified;
        }
    }
    small_certified(&mut run.rng)
}

#[test]
fn one_fault() {
    let mut run = Run::start("one_fault");
    for fault in BundleFault::ALL {
        let mut made = 0;
        while made < run.cases(150) {
            let certified = sound(&mut run);
            // Several faults from one bundle: making it takes longest.
            for _ in 0..10 {
                let Some((bytes, refused)) = fault.bytes(&mut run.rng, &certified) else {
                    continue;
                };
                let outcome = judge(&mut run, &bytes);
                assert_eq!(outcome, Err(refused), "{fault:?}, {bytes:?}, {run}");
                made += 1;
            }
        }
    }
    run.finish(&[
        (6, 150),
        (7, 12 * 150),
        (10, 4 * 150),
        (11, 2 * 150),
        (12, 14 * 150),
        (13, 150),
        (20, 2 * 150),
    ]);
}

/// A way to change the parts of a bundle after which it may be accepted or not.
#[derive(Clone, Copy, Debug)]
enum Change {
    DropCertificate,
    RepeatCertificate,
    SwapCertificates,
    ReverseCertificates,
    DropTerm,
    RepeatTerm,
    ShuffleTerms,
    DropPlace,
    RepeatPlace,
    SwapPlaces,
    DropWord,
    RepeatWord,
    SwapWords,
    ShuffleEvents,
    ExchangeInAndOut,
    OtherLog,
}

impl Change {
    const ALL: [Change; 16] = [
        Change::DropCertificate,
        Change::RepeatCertificate,
        Change::SwapCertificates,
        Change::ReverseCertificates,
        Change::DropTerm,
        Change::RepeatTerm,
        Change::ShuffleTerms,
        Change::DropPlace,
        Change::RepeatPlace,
        Change::SwapPlaces,
        Change::DropWord,
        Change::RepeatWord,
        Change::SwapWords,
        Change::ShuffleEvents,
        Change::ExchangeInAndOut,
        Change::OtherLog,
    ];

    fn make(self, run: &mut Run, bundle: &mut Bundle) {
        match self {
            Change::DropCertificate => drop_one(run, &mut bundle.certificates),
            Change::RepeatCertificate => repeat_one(run, &mut bundle.certificates),
            Change::SwapCertificates => swap_two(run, &mut bundle.certificates),
            Change::ReverseCertificates => bundle.certificates.reverse(),
            Change::DropTerm | Change::RepeatTerm | Change::ShuffleTerms => {
                for certificate in &mut bundle.certificates {
                    if let Certificate::Weights { terms, .. } = certificate {
                        match self {
                            Change::DropTerm => drop_one(run, terms),
                            Change::RepeatTerm => repeat_one(run, terms),
                            _ => *terms = run.rng.shuffled(terms),
                        }
                    }
                }
            }
            Change::DropPlace => drop_one(run, &mut bundle.places),
            Change::RepeatPlace => repeat_one(run, &mut bundle.places),
            Change::SwapPlaces => swap_two(run, &mut bundle.places),
            Change::DropWord => drop_one(run, &mut bundle.words),
            // At the end, so that the rows keep their numbers.
            Change::RepeatWord => bundle.words.extend(bundle.words.first().cloned()),
            Change::SwapWords => swap_two(run, &mut bundle.words),
            Change::ShuffleEvents => {
                if !bundle.words.is_empty() {
                    let any = run.rng.below(bundle.words.len());
                    bundle.words[any] = run.rng.shuffled(&bundle.words[any]);
                }
            }
            Change::ExchangeInAndOut => {
                if !bundle.places.is_empty() {
                    let any = run.rng.below(bundle.places.len());
                    let place = &mut bundle.places[any];
                    std::mem::swap(&mut place.ins, &mut place.outs);
                }
            }
            Change::OtherLog => {
                let (n, words) = small_log(&mut run.rng);
                if n == bundle.n {
                    bundle.words = words;
                }
            }
        }
    }
}

fn drop_one<T>(run: &mut Run, items: &mut Vec<T>) {
    if !items.is_empty() {
        items.remove(run.rng.below(items.len()));
    }
}

fn repeat_one<T: Clone>(run: &mut Run, items: &mut Vec<T>) {
    if !items.is_empty() {
        let item = items[run.rng.below(items.len())].clone();
        items.insert(run.rng.within(0..=items.len()), item);
    }
}

fn swap_two<T>(run: &mut Run, items: &mut [T]) {
    if items.len() > 1 {
        let (low, high) = run.rng.two_below(items.len());
        items.swap(low, high);
    }
}

/// Parts that are missing, there twice or in another order: the definitions say
/// which of these bundles are still accepted.
#[test]
fn changed_parts() {
    let mut run = Run::start("changed_parts");
    for change in Change::ALL {
        for _ in 0..run.cases(60) {
            let certified = sound(&mut run);
            for _ in 0..3 {
                let mut bundle = certified.bundle.clone();
                change.make(&mut run, &mut bundle);
                let outcome = judge(&mut run, &bundle.bytes());
                match change {
                    Change::ShuffleTerms | Change::RepeatWord => {
                        assert_eq!(outcome, Ok(certified.counts), "{change:?}, {run}");
                    }
                    _ => (),
                }
            }
        }
    }
    run.finish(&[(0, 500), (6, 1), (7, 20), (10, 50), (11, 500), (12, 100)]);
}

/// Up to four changes at once. The definitions say which fault comes first.
#[test]
fn several_faults() {
    let mut run = Run::start("several_faults");
    for _ in 0..run.cases(400) {
        let certified = sound(&mut run);
        for _ in 0..8 {
            let bytes = altered(&mut run.rng, &certified.bundle);
            judge(&mut run, &bytes).ok();
        }
    }
    run.finish(&[
        (0, 50),
        (6, 300),
        (7, 500),
        (10, 200),
        (11, 100),
        (12, 100),
        (13, 50),
    ]);
}

/// Bundles of small random bytes, after which often something else comes than the
/// byte before called for.
#[test]
fn noise() {
    let mut run = Run::start("judge_faults::noise");
    for _ in 0..run.cases(4_000) {
        let largest = run.rng.choose(&[1, 2, 3, 12, 255]);
        let length = run.rng.within(1..=100);
        let bytes: Vec<u8> = (0..length)
            .map(|_| run.rng.within(0..=largest) as u8)
            .collect();
        judge(&mut run, &bytes).ok();
    }
    run.finish(&[(6, 100), (7, 2_000), (10, 10), (11, 5), (12, 30)]);
}

/// Accepted bundles of one log are refused with the certificates of another net.
#[test]
fn certificates_of_another_net() {
    let mut run = Run::start("certificates_of_another_net");
    for _ in 0..run.cases(300) {
        let (n, words) = small_log(&mut run.rng);
        let nets = [words.clone(), words].map(|words| certified(&mut run.rng, n, words));
        if let [Some(one), Some(other)] = nets {
            let mixed = Bundle {
                certificates: other.bundle.certificates,
                ..one.bundle
            };
            judge(&mut run, &mixed.bytes()).ok();
        }
    }
    run.finish(&[(7, 5), (11, 100)]);
}
