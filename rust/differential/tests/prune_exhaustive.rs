//! Pruning: every beginning, every byte, and every way to name few places.

use differential::bundles::{Bundle, Certificate, Place, SAMPLE_A, SAMPLE_NEW};
use differential::logs::TABLE;
use differential::pruning::{idle_count, prune_by_definitions, WITH_IDLE};
use differential::run::{Outcome, Run};

/// Prunes on both sides into an output of the bundle's length, and checks the answer and the
/// output by the definitions.
fn prune(run: &mut Run, bundle: &[u8]) -> Outcome {
    let noise: Vec<u16> = run.rng.items(TABLE);
    let done = run.prune(bundle, bundle.len(), &noise);
    let (expected, table) = prune_by_definitions(bundle);
    if let Ok(result) = &expected {
        assert!(done.output[..result.len()] == *result, "{bundle:?}, {run}");
    }
    let expected = expected.map(|result| result.len());
    assert_eq!(done.outcome, expected, "{bundle:?}, {run}");
    assert!(done.table == table, "another table: {bundle:?}, {run}");
    expected
}

/// Every beginning of a bundle, and every value of every byte of it.
fn every_change(run: &mut Run, bundle: &[u8]) {
    for length in 1..bundle.len() {
        let outcome = prune(run, &bundle[..length]);
        let number = outcome.map_err(|refused| refused.number);
        assert_eq!(number, Err(6), "{length}, {run}");
    }
    for position in 0..bundle.len() {
        for value in 0..=255 {
            let mut bytes = bundle.to_vec();
            bytes[position] = value;
            if matches!(prune(run, &bytes), Ok(length) if length < bytes.len()) {
                run.note("shorter");
            }
        }
    }
}

#[test]
fn every_beginning_and_every_byte() {
    let mut run = Run::start("prune::every_beginning_and_every_byte");
    every_change(&mut run, &SAMPLE_A);
    every_change(&mut run, &WITH_IDLE);
    every_change(&mut run, &SAMPLE_NEW);
    // Nothing here is random but what the buffers held: these are all.
    let of_bundles = [(0, 2_256), (6, 598), (7, 24_426), (10, 9_234)];
    let of_certificates = [(20, 2_051), (11, 9_216), (12, 6_185), (13, 1)];
    let all = [of_bundles, of_certificates].concat();
    run.finish_with_classes(&all, &[("shorter", 1_609)]);
}

/// No word, and up to five places that each refuse every event: each certificate names each
/// of them.
#[test]
fn every_naming() {
    let mut run = Run::start("every_naming");
    for count in 1..=5usize {
        for n in 1..=4 {
            let place = |number: usize| Place {
                m: number as u16,
                ins: (0..n).map(|event| (number + event) as u16).collect(),
                outs: vec![300 * (1 + number as u16); n],
            };
            for naming in 0..count.pow(n as u32) {
                let digit = |event| naming / count.pow(event as u32) % count;
                let bundle = Bundle {
                    n,
                    words: Vec::new(),
                    marks: None,
                    places: (0..count).map(place).collect(),
                    certificates: (0..n)
                        .map(|event| Certificate::Place(digit(event) as u8))
                        .collect(),
                };
                let bytes = bundle.bytes();
                let length = bytes.len() - idle_count(&bundle) * (2 + 4 * n);
                assert_eq!(prune(&mut run, &bytes), Ok(length), "{bundle:?}, {run}");
            }
        }
    }
    let namings = (1..=5usize).map(|count| (1..=4).map(|n| count.pow(n)).sum::<usize>());
    run.finish(&[(0, namings.sum())]);
}
