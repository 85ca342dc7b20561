//! Sealing: bundles of every kind of length.

use differential::files::{build, Filling, CONTENTS, MAX_BLOCKS, MAX_BUNDLE_SIZE};
use differential::run::{output_lengths, refusal, Run};

/// Seals a bundle with outputs of several lengths.
fn seal(run: &mut Run, bundle: &[u8]) {
    let file = build(bundle);
    for output_len in output_lengths(&mut run.rng, file.len()) {
        let done = run.seal(bundle, output_len);
        if bundle.is_empty() || bundle.len() > MAX_BUNDLE_SIZE {
            assert_eq!(done.outcome, refusal(4, 0), "{run}");
        } else if output_len < file.len() {
            assert_eq!(done.outcome, refusal(3, file.len()), "{run}");
        } else {
            assert_eq!(done.outcome, Ok(file.len()), "{run}");
            assert!(done.output[..file.len()] == file, "another file: {run}");
        }
    }
}

#[test]
fn lengths_at_the_limits() {
    let mut run = Run::start("lengths_at_the_limits");
    let allowed = [1, 2, 503, 504, 505, 1_007, 1_008, 1_009, 64_511, 64_512];
    let refused = [0, 64_513, 65_016, 65_536, 100_000];
    for _ in 0..run.cases(4) {
        for length in allowed.into_iter().chain(refused) {
            for filling in Filling::ALL {
                let bundle = filling.bundle(&mut run.rng, length);
                seal(&mut run, &bundle);
            }
        }
    }
    run.finish(&[(0, 480), (3, 240), (4, 360)]);
}

#[test]
fn lengths_around_every_block_border() {
    let mut run = Run::start("lengths_around_every_block_border");
    for _ in 0..run.cases(1) {
        for blocks in 1..=MAX_BLOCKS {
            let border = blocks * CONTENTS;
            for length in [border - 1, border, border + 1] {
                let filling = run.rng.choose(&Filling::ALL);
                let bundle = filling.bundle(&mut run.rng, length);
                seal(&mut run, &bundle);
            }
        }
    }
    run.finish(&[(0, 383 * 4), (3, 383 * 2), (4, 6)]);
}

#[test]
fn random_lengths() {
    let mut run = Run::start("random_lengths");
    for _ in 0..run.cases(200) {
        let one_block = run.rng.within(1..=CONTENTS);
        let any = run.rng.within(1..=MAX_BUNDLE_SIZE);
        let too_long = run.rng.within(MAX_BUNDLE_SIZE + 1..=3 * MAX_BUNDLE_SIZE);
        for length in [one_block, any, too_long] {
            let filling = run.rng.choose(&Filling::ALL);
            let bundle = filling.bundle(&mut run.rng, length);
            seal(&mut run, &bundle);
        }
    }
    run.finish(&[(0, 1_600), (3, 800), (4, 1_200)]);
}

/// Every used count of the last block, so every length of padding, with outputs that
/// held zeros, ones in every bit, another sealed file, or anything: none of it shows.
#[test]
fn what_the_output_held() {
    let mut run = Run::start("what_the_output_held");
    for used in 1..=CONTENTS {
        let full_blocks = run.rng.choose(&[0, 1, 2]);
        let bundle = Filling::Noise.bundle(&mut run.rng, full_blocks * CONTENTS + used);
        let file = build(&bundle);
        let behind = run.rng.within(0..=700);
        let other = Filling::Noise.bundle(&mut run.rng, (full_blocks + 2) * CONTENTS);
        let held = [
            vec![0x00; file.len() + behind],
            vec![0xff; file.len() + behind],
            build(&other),
            run.rng.bytes(file.len() + behind),
        ];
        for output in held {
            let done = run.seal_into(&bundle, output.clone());
            assert_eq!(done.outcome, Ok(file.len()), "{run}");
            assert!(done.output[..file.len()] == file, "another file: {run}");
            assert!(done.output[file.len()..] == output[file.len()..], "{run}");
        }
    }
    run.finish(&[(0, 4 * 504)]);
}
