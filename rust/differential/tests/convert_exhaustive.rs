//! Conversion between the editions: every beginning and every byte of a bundle.

use differential::bundles::{SAMPLE_A, SAMPLE_A_NEW, SAMPLE_NEW};
use differential::logs::TABLE;
use differential::rewriting::Rewrite;
use differential::run::{Outcome, Run};

/// Converts on both sides into an output that has room, and checks the answer, the output and
/// the table by the definitions.
fn convert(run: &mut Run, call: Rewrite, bundle: &[u8]) -> Outcome {
    let noise: Vec<u16> = run.rng.items(TABLE);
    let done = run.rewrite(call, bundle, call.room(bundle), &noise);
    let (expected, table) = call.by_definitions(bundle);
    if let Ok(result) = &expected {
        let written = &done.output[..result.len()];
        assert!(written == result, "{call:?}, {bundle:?}, {run}");
    }
    let expected = expected.map(|result| result.len());
    assert_eq!(done.outcome, expected, "{call:?}, {bundle:?}, {run}");
    assert!(done.table == table, "another table: {bundle:?}, {run}");
    expected
}

/// Every beginning of a bundle, and every value of every byte of it.
fn every_change(run: &mut Run, call: Rewrite, bundle: &[u8]) {
    for length in 1..bundle.len() {
        let outcome = convert(run, call, &bundle[..length]);
        let number = outcome.map_err(|refused| refused.number);
        assert_eq!(number, Err(6), "{length}, {run}");
    }
    for position in 0..bundle.len() {
        for value in 0..=255 {
            let mut bytes = bundle.to_vec();
            bytes[position] = value;
            match convert(run, call, &bytes) {
                Ok(length) if length < bytes.len() => run.note("shorter"),
                Ok(length) if length > bytes.len() => run.note("longer"),
                Ok(_) => run.note("copied"),
                Err(_) => (),
            }
        }
    }
}

#[test]
fn every_beginning_and_every_byte() {
    let mut run = Run::start("convert::every_beginning_and_every_byte");
    for call in Rewrite::CONVERSIONS {
        for bundle in [SAMPLE_A.as_slice(), &SAMPLE_A_NEW, &SAMPLE_NEW] {
            every_change(&mut run, call, bundle);
        }
    }
    // Nothing here is random but what the buffers held: these are all.
    let of_bundles = [(0, 2_342), (6, 1_382), (7, 48_154), (21, 80)];
    let of_nets = [(10, 14_378), (20, 4_106), (11, 14_332), (12, 12_366)];
    run.finish_with_classes(
        &[of_bundles, of_nets].concat(),
        &[("copied", 1_211), ("longer", 564), ("shorter", 567)],
    );
}
