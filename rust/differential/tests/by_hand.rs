//! Files whose bytes and sums are worked out by hand.

use differential::run::{refusal, Outcome, Run};

/// A block from its parts; contents after `contents` are zero.
fn block(number: u8, used: [u8; 2], contents: &[u8], plain: [u8; 2], weighted: [u8; 2]) -> Vec<u8> {
    let mut block = vec![number, 0, used[0], used[1]];
    block.extend(contents);
    block.resize(508, 0);
    block.extend(plain);
    block.extend(weighted);
    block
}

/// Bundle 1 0 0, one block: number 0 0, used 3 0, contents 1 0 0.
///
/// S = 3 + 1 = 4. W: byte 2 is 3 and byte 4 is 1, so 3 × 3 + 5 × 1 = 14.
fn three_bytes() -> (Vec<u8>, Vec<u8>) {
    let mut file = vec![0, 0, 3, 0, 1, 0, 0];
    file.resize(508, 0);
    file.extend([4, 0, 14, 0]);
    (vec![1, 0, 0], file)
}

/// Bundle of 504 bytes 255 and one byte 7, two blocks.
///
/// Block 0: number 0 0, used 504 = 248 + 1 × 256.
/// S = 248 + 1 + 504 × 255 = 128,769; less 65,521 is 63,248 = 16 + 247 × 256.
/// W = 3 × 248 + 4 × 1 + 255 × (5 + 6 + … + 508) = 748 + 255 × 129,276
///   = 32,966,128; less 503 × 65,521 = 32,957,063 is 9,065 = 105 + 35 × 256.
/// Block 1: number 1 0, used 1 0, contents 7.
/// S = 1 + 1 + 7 = 9. W = 1 × 1 + 3 × 1 + 5 × 7 = 39.
fn two_blocks() -> (Vec<u8>, Vec<u8>) {
    let mut bundle = vec![255; 504];
    let mut file = block(0, [248, 1], &bundle, [16, 247], [105, 35]);
    file.extend(block(1, [1, 0], &[7], [9, 0], [39, 0]));
    bundle.push(7);
    (bundle, file)
}

/// Bundle of 1,008 zeros and one byte 7, three blocks.
///
/// Blocks 0 and 1: used 504 = 248 + 1 × 256, and no other byte but the number's.
/// S = 248 + 1 = 249 in block 0 and 250 in block 1.
/// W = 3 × 248 + 4 × 1 = 748 = 236 + 2 × 256 in block 0, and 749 in block 1.
/// Block 2: number 2 0, used 1 0, contents 7.
/// S = 2 + 1 + 7 = 10. W = 1 × 2 + 3 × 1 + 5 × 7 = 40.
fn three_blocks() -> [Vec<u8>; 3] {
    [
        block(0, [248, 1], &[], [249, 0], [236, 2]),
        block(1, [248, 1], &[], [250, 0], [237, 2]),
        block(2, [1, 0], &[7], [10, 0], [40, 0]),
    ]
}

/// Bundle of 255 bytes 255, one byte 247 and 248 zeros: its plain sum is the
/// modulus itself.
///
/// S = 248 + 1 + 255 × 255 + 247 = 65,521, so 0.
/// W = 748 + 255 × (5 + 6 + … + 259) + 260 × 247 = 748 + 255 × 33,660 + 64,220
///   = 8,648,268; less 131 × 65,521 = 8,583,251 is 65,017 = 249 + 253 × 256.
fn sum_equal_to_modulus() -> (Vec<u8>, Vec<u8>) {
    let mut bundle = vec![255; 255];
    bundle.push(247);
    bundle.resize(504, 0);
    let file = block(0, [248, 1], &bundle, [0, 0], [249, 253]);
    (bundle, file)
}

#[test]
fn sound_files() {
    let mut run = Run::start("by_hand::sound_files");
    for (bundle, file) in [three_bytes(), two_blocks(), sum_equal_to_modulus()] {
        let opened = run.open(&file, bundle.len());
        assert_eq!(opened.outcome, Ok(bundle.len()), "{run}");
        assert_eq!(opened.output, bundle, "{run}");
        let sealed = run.seal(&bundle, file.len());
        assert_eq!(sealed.outcome, Ok(file.len()), "{run}");
        assert_eq!(sealed.output, file, "{run}");
    }
    run.finish(&[(0, 6)]);
}

#[test]
fn refusals_of_open() {
    let mut run = Run::start("by_hand::refusals_of_open");
    let mut expect = |file: &[u8], output_len, expected: Outcome| {
        assert_eq!(run.open(file, output_len).outcome, expected, "{run}");
    };

    let (_, file) = three_bytes();
    expect(&[], 0, refusal(1, 0));
    expect(&file[..511], 3, refusal(1, 0));
    expect(&[file.as_slice(), &[0]].concat(), 3, refusal(1, 0));
    expect(&[0; 65_537], 64_512, refusal(1, 0));
    expect(&[0; 66_048], 64_512, refusal(1, 0));
    expect(&file, 2, refusal(3, 3));
    expect(&file, 0, refusal(3, 3));

    // All zeros: the sums are right, but no byte is used.
    expect(&[0; 512], 504, refusal(18, 0));

    // Plain sum 65,521 = 241 + 255 × 256 in place of 0: congruent, not equal.
    let (_, mut file) = sum_equal_to_modulus();
    file[508] = 241;
    file[509] = 255;
    expect(&file, 504, refusal(2, 0));

    // The second block altered: its number is the spot, also with an output that
    // is too short. With the first altered as well, that one is named.
    let (_, mut file) = two_blocks();
    file[512 + 4] = 8;
    expect(&file, 505, refusal(2, 1));
    expect(&file, 0, refusal(2, 1));
    file[100] = 254;
    expect(&file, 505, refusal(2, 0));

    // The first block alone is a sound file; the second alone has a wrong number.
    let (_, file) = two_blocks();
    expect(&file[..512], 504, Ok(504));
    expect(&file[512..], 504, refusal(17, 0));
    expect(&file, 504, refusal(3, 505));

    run.finish(&[(0, 1), (1, 5), (2, 4), (3, 3), (17, 1), (18, 1)]);
}

/// Opens a file of these blocks, with room and without.
fn expect_blocks(run: &mut Run, blocks: &[&Vec<u8>], expected: Outcome) {
    let file: Vec<u8> = blocks
        .iter()
        .flat_map(|block| block.iter().copied())
        .collect();
    assert_eq!(run.open(&file, 64_512).outcome, expected, "{run}");
    if expected.is_err() {
        assert_eq!(run.open(&file, 0).outcome, expected, "{run}");
    }
}

/// Each rule broken alone, with sums that are right unless they are the fault.
#[test]
fn one_broken_rule() {
    let mut run = Run::start("by_hand::one_broken_rule");
    let [first, second, last] = three_blocks();

    // Number 5 in place of 1: both sums are 4 more. Number 257: byte 1 is 1, so S is
    // one more and W two.
    let five = block(5, [248, 1], &[], [254, 0], [241, 2]);
    let mut high_byte = block(1, [248, 1], &[], [251, 0], [239, 2]);
    high_byte[1] = 1;
    for other in [&five, &high_byte] {
        expect_blocks(&mut run, &[&first, other, &last], refusal(17, 1));
    }

    // Used 503 = 247 + 1 × 256 and 505 in block 0: S one less or more, W three.
    let less = block(0, [247, 1], &[], [248, 0], [233, 2]);
    let more = block(0, [249, 1], &[], [250, 0], [239, 2]);
    for other in [&less, &more] {
        expect_blocks(&mut run, &[other, &second, &last], refusal(18, 0));
    }
    // In the last block used 0: S = W = 2. Used 505: S = 2 + 249 + 1 + 7 = 259,
    // W = 2 + 3 × 249 + 4 × 1 + 35 = 788 = 20 + 3 × 256.
    let none = block(2, [0, 0], &[], [2, 0], [2, 0]);
    let too_many = block(2, [249, 1], &[7], [3, 1], [20, 3]);
    // Used 1, and the first byte that is not used is 9: S = 10 + 9, W = 40 + 6 × 9.
    let padded = block(2, [1, 0], &[7, 9], [19, 0], [94, 0]);
    // The last one is 1: S = 10 + 1, W = 40 + 508 = 548 = 36 + 2 × 256.
    let mut padded_at_end = block(2, [1, 0], &[7], [11, 0], [36, 2]);
    padded_at_end[507] = 1;
    for other in [&none, &too_many, &padded, &padded_at_end] {
        expect_blocks(&mut run, &[&first, &second, other], refusal(18, 2));
    }

    let plain = block(1, [248, 1], &[], [251, 0], [237, 2]);
    let weighted = block(1, [248, 1], &[], [250, 0], [236, 2]);
    for other in [&plain, &weighted] {
        expect_blocks(&mut run, &[&first, other, &last], refusal(2, 1));
    }
    run.finish(&[(17, 4), (18, 12), (2, 4)]);
}

/// All three at once in block 1, and then one after the other made right.
#[test]
fn several_broken_rules() {
    let mut run = Run::start("by_hand::several_broken_rules");
    let [first, second, last] = three_blocks();
    let mut other = block(7, [1, 0], &[3, 3], [0, 0], [0, 0]);
    expect_blocks(&mut run, &[&first, &other, &last], refusal(17, 1));
    other[0] = 1;
    expect_blocks(&mut run, &[&first, &other, &last], refusal(18, 1));
    other[2..4].copy_from_slice(&[248, 1]);
    expect_blocks(&mut run, &[&first, &other, &last], refusal(2, 1));
    // S = 250 + 6 = 256, W = 749 + 5 × 3 + 6 × 3 = 782 = 14 + 3 × 256.
    other[508..].copy_from_slice(&[0, 1, 14, 3]);
    expect_blocks(&mut run, &[&first, &other, &last], Ok(1_009));

    // The lowest block is named, whatever the others have.
    let sums = block(0, [248, 1], &[], [0, 0], [236, 2]);
    let contents = block(0, [0, 0], &[], [0, 0], [0, 0]);
    let number = block(9, [248, 1], &[], [2, 1], [245, 2]);
    let contents_of_last = block(2, [0, 0], &[], [2, 0], [2, 0]);
    expect_blocks(&mut run, &[&sums, &number, &last], refusal(2, 0));
    expect_blocks(
        &mut run,
        &[&sums, &second, &contents_of_last],
        refusal(2, 0),
    );
    expect_blocks(&mut run, &[&contents, &number, &last], refusal(18, 0));
    expect_blocks(&mut run, &[&number, &sums, &contents], refusal(17, 0));
    expect_blocks(
        &mut run,
        &[&first, &number, &contents_of_last],
        refusal(17, 1),
    );
    run.finish(&[(0, 1), (17, 6), (18, 4), (2, 6)]);
}

/// Sound blocks that are not where they belong.
#[test]
fn blocks_out_of_order() {
    let mut run = Run::start("by_hand::blocks_out_of_order");
    let blocks = three_blocks();
    for (order, expected) in [
        ([0, 1, 2].as_slice(), Ok(1_009)),
        // Two of them swapped.
        (&[1, 0, 2], refusal(17, 0)),
        (&[0, 2, 1], refusal(17, 1)),
        (&[2, 1, 0], refusal(17, 0)),
        // The first, the middle and the last one lost. Without the last it is a sound
        // file, since the blocks before it are full.
        (&[1, 2], refusal(17, 0)),
        (&[0, 2], refusal(17, 1)),
        (&[0, 1], Ok(1_008)),
        (&[0], Ok(504)),
        (&[2], refusal(17, 0)),
        // One of them doubled. The last one, with another behind it, is not full.
        (&[0, 0, 1, 2], refusal(17, 1)),
        (&[0, 1, 1, 2], refusal(17, 2)),
        (&[0, 1, 2, 2], refusal(18, 2)),
        (&[0, 1, 1], refusal(17, 2)),
    ] {
        let file: Vec<&Vec<u8>> = order.iter().map(|&block| &blocks[block]).collect();
        expect_blocks(&mut run, &file, expected);
    }
    run.finish(&[(0, 3), (17, 18), (18, 2)]);
}

#[test]
fn refusals_of_seal() {
    let mut run = Run::start("by_hand::refusals_of_seal");
    for (length, output_len, expected) in [
        (0, 0, refusal(4, 0)),
        (0, 512, refusal(4, 0)),
        (64_513, 0, refusal(4, 0)),
        (64_513, 70_000, refusal(4, 0)),
        (1, 511, refusal(3, 512)),
        (504, 511, refusal(3, 512)),
        (505, 512, refusal(3, 1_024)),
        (64_512, 65_535, refusal(3, 65_536)),
    ] {
        let done = run.seal(&vec![1; length], output_len);
        assert_eq!(done.outcome, expected, "length {length}, {run}");
    }
    run.finish(&[(3, 4), (4, 4)]);
}
