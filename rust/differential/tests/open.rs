//! Opening: sound files, files with one fault, and noise.

use differential::faults::{BlockFault, LengthFault};
use differential::files::{
    block_count, block_mut, build, bundle_length, make_sum_small, random_bundle, refused_block,
    Field, Filling, BLOCK, CONTENTS, MAX_BLOCKS,
};
use differential::run::{output_lengths, refusal, Run};

/// Opens a sound file with outputs of several lengths.
fn open_sound(run: &mut Run, file: &[u8], bundle: &[u8]) {
    let needed = bundle.len();
    for output_len in output_lengths(&mut run.rng, needed) {
        let done = run.open(file, output_len);
        if output_len < needed {
            assert_eq!(done.outcome, refusal(3, needed), "{run}");
        } else {
            assert_eq!(done.outcome, Ok(needed), "{run}");
            assert!(done.output[..needed] == *bundle, "another bundle: {run}");
        }
    }
}

#[test]
fn sound_files_of_every_block_count() {
    let mut run = Run::start("sound_files_of_every_block_count");
    for _ in 0..run.cases(1) {
        for blocks in 1..=MAX_BLOCKS {
            let any = run.rng.within(1..=CONTENTS);
            for last in [1, 503, 504, any] {
                let filling = run.rng.choose(&Filling::ALL);
                let bundle = filling.bundle(&mut run.rng, bundle_length(blocks, last));
                open_sound(&mut run, &build(&bundle), &bundle);
            }
        }
    }
    run.finish(&[(0, 2_048), (3, 1_024)]);
}

/// Blocks whose plain or weighted sum has just passed a multiple of the modulus.
#[test]
fn sound_files_with_small_sums() {
    let mut run = Run::start("sound_files_with_small_sums");
    for _ in 0..run.cases(100) {
        for sum in [Field::PlainSum, Field::WeightedSum] {
            let blocks = block_count(&mut run.rng, 1);
            let mut bundle = run.rng.bytes(bundle_length(blocks, CONTENTS));
            let mut file = build(&bundle);
            let index = run.rng.below(blocks);
            let block = block_mut(&mut file, index);
            make_sum_small(&mut run.rng, block, sum);
            bundle[index * CONTENTS..][..CONTENTS].copy_from_slice(&block[4..508]);
            open_sound(&mut run, &file, &bundle);
        }
    }
    run.finish(&[(0, 800), (3, 400)]);
}

/// Every block but the last is full, so whole blocks can be missing at the end
/// and the rest is a sound file with the front of the bundle.
#[test]
fn files_cut_between_blocks() {
    let mut run = Run::start("files_cut_between_blocks");
    for _ in 0..run.cases(100) {
        let bundle = random_bundle(&mut run.rng, 2);
        let file = build(&bundle);
        assert_eq!(refused_block(&file), None, "{run}");
        let left = run.rng.within(1..=file.len() / BLOCK - 1);
        open_sound(&mut run, &file[..left * BLOCK], &bundle[..left * CONTENTS]);
    }
    run.finish(&[(0, 400), (3, 200)]);
}

#[test]
fn wrong_lengths() {
    let mut run = Run::start("wrong_lengths");
    for fault in LengthFault::ALL {
        for _ in 0..run.cases(250) {
            let file = fault.file(&mut run.rng);
            let lengths = output_lengths(&mut run.rng, file.len());
            let output_len = run.rng.choose(&lengths);
            let done = run.open(&file, output_len);
            assert_eq!(done.outcome, refusal(1, 0), "{fault:?}, {run}");
        }
    }
    run.finish(&[(1, 1_500)]);
}

/// A faulty block is refused whatever the output's length is: refusals 17, 18 and 2
/// come before refusal 3. What a fault says is also what a plain reading says.
#[test]
fn faulty_blocks() {
    let mut run = Run::start("faulty_blocks");
    for fault in BlockFault::ALL {
        for _ in 0..run.cases(400) {
            let (file, refused) = fault.file(&mut run.rng);
            assert_eq!(refused_block(&file), Some(refused), "{fault:?}, {run}");
            assert!(file.len() <= MAX_BLOCKS * BLOCK, "{fault:?}, {run}");
            let lengths = output_lengths(&mut run.rng, file.len() / BLOCK * CONTENTS);
            let output_len = run.rng.choose(&lengths);
            let done = run.open(&file, output_len);
            assert_eq!(done.outcome, Err(refused), "{fault:?}, {run}");
        }
    }
    run.finish(&[(17, 2_000), (18, 1_600), (2, 1_600)]);
}

/// Noise, in one case of three with the number of block 0 right, and in one with its
/// used count right too.
#[test]
fn noise() {
    let mut run = Run::start("noise");
    for case in 0..run.cases(1_500) {
        let blocks = block_count(&mut run.rng, 1);
        let mut file = run.rng.bytes(blocks * BLOCK);
        if case % 3 > 0 {
            Field::Number.write(&mut file, 0);
        }
        if case % 3 > 1 {
            Field::Used.write(&mut file, CONTENTS);
        }
        // The number or the used count can be right by chance.
        let refused = refused_block(&file).expect("noise is not sound");
        assert_eq!(refused.spot, 0, "{run}");
        let lengths = output_lengths(&mut run.rng, blocks * CONTENTS);
        let output_len = run.rng.choose(&lengths);
        let done = run.open(&file, output_len);
        assert_eq!(done.outcome, Err(refused), "{run}");
    }
    run.finish(&[(17, 480), (18, 450), (2, 500)]);
}
