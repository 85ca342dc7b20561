//! Judging: every beginning, every byte, and every very small bundle.

use differential::bundle_faults::refusal_of_cut;
use differential::bundles::{NEW, SAMPLE_A, SAMPLE_E, SAMPLE_NEW};
use differential::judging::judge;
use differential::nets::{small_certified, Certified};
use differential::run::Run;

/// A bundle of at most so many bytes with certificates of both kinds.
fn with_both_kinds(run: &mut Run, most: usize) -> Certified {
    loop {
        let certified = small_certified(&mut run.rng);
        if certified.counts.by_place > 0
            && certified.counts.by_weights > 0
            && certified.bundle.bytes().len() <= most
        {
            return certified;
        }
    }
}

/// Every beginning of a bundle ends before or inside a field.
#[test]
fn every_beginning() {
    let mut run = Run::start("every_beginning");
    for _ in 0..run.cases(10) {
        let certified = with_both_kinds(&mut run, 500);
        let layout = certified.bundle.layout();
        for length in 1..layout.bytes.len() {
            let outcome = judge(&mut run, &layout.bytes[..length]);
            let expected = Err(refusal_of_cut(&layout, length));
            assert_eq!(outcome, expected, "{length} of {layout:?}, {run}");
        }
        let outcome = judge(&mut run, &layout.bytes);
        assert_eq!(outcome, Ok(certified.counts), "{run}");
    }
    run.finish(&[(0, 10), (6, 500)]);
}

/// Every value of every byte of a bundle.
fn every_value(run: &mut Run, bundle: &[u8]) {
    for position in 0..bundle.len() {
        for value in 0..=255 {
            let mut bytes = bundle.to_vec();
            bytes[position] = value;
            judge(run, &bytes).ok();
        }
    }
}

#[test]
fn every_byte() {
    let mut run = Run::start("every_byte");
    every_value(&mut run, &SAMPLE_A);
    every_value(&mut run, &SAMPLE_E);
    every_value(&mut run, &SAMPLE_NEW);
    for _ in 0..run.cases(2) {
        let bundle = with_both_kinds(&mut run, 100).bundle.bytes();
        every_value(&mut run, &bundle);
    }
    run.finish(&[
        (0, 100),
        (6, 200),
        (7, 5_000),
        (10, 1_000),
        (11, 1_000),
        (12, 500),
        (20, 100),
    ]);
}

/// Every pair of bytes of a small bundle, with values that are near or small.
#[test]
fn every_pair_of_bytes() {
    let mut run = Run::start("every_pair_of_bytes");
    for sample in [SAMPLE_A.as_slice(), &SAMPLE_NEW] {
        for low in 0..sample.len() {
            for high in low + 1..sample.len() {
                for (first, second) in [(1, 1), (1, 255), (255, 1), (2, 1), (1, 2), (255, 255)] {
                    let mut bytes = sample.to_vec();
                    bytes[low] = bytes[low].wrapping_add(first);
                    bytes[high] = bytes[high].wrapping_add(second);
                    judge(&mut run, &bytes).ok();
                }
            }
        }
    }
    let of_fields = [(6, 10), (7, 2_000)];
    let of_nets = [(10, 1_000), (20, 500), (11, 1_000), (12, 500)];
    run.finish(&[of_fields.as_slice(), &of_nets].concat());
}

/// Every bundle of up to eight bytes, all of them below 3 but for the first of the new
/// edition.
#[test]
fn every_very_small_bundle() {
    let mut run = Run::start("every_very_small_bundle");
    for edition in [0, NEW as u8] {
        for length in 1..=8u32 {
            for number in 0..3usize.pow(length) {
                let mut bytes: Vec<u8> = (0..length)
                    .map(|position| (number / 3usize.pow(position) % 3) as u8)
                    .collect();
                bytes[0] += edition;
                judge(&mut run, &bytes).ok();
            }
        }
    }
    run.finish(&[(6, 2_000), (7, 6_000), (12, 25)]);
}
