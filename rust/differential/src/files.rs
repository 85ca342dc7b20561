//! Bundles and sound files.
//!
//! The builder and the checks here are a third reading of the rules, kept as close
//! to their wording as possible and without regard to speed. The tests know from it
//! what a call has to answer, apart from what the reference says.

use crate::rng::Rng;
use reference::Refusal;
use std::ops::Range;

/// Bytes of a block.
pub const BLOCK: usize = 512;
/// Bytes of a block's contents.
pub const CONTENTS: usize = 504;
/// The largest number of blocks in a file.
pub const MAX_BLOCKS: usize = 128;
/// The largest length of a bundle.
pub const MAX_BUNDLE_SIZE: usize = 64_512;
/// The modulus of both sums.
pub const MODULUS: usize = 65_521;

/// One of the four numbers of two bytes in a block.
#[derive(Clone, Copy, Debug, PartialEq, Eq)]
pub enum Field {
    /// The block number.
    Number,
    /// The used count.
    Used,
    /// The plain sum, S.
    PlainSum,
    /// The weighted sum, W.
    WeightedSum,
}

impl Field {
    /// All four.
    pub const ALL: [Field; 4] = [
        Field::Number,
        Field::Used,
        Field::PlainSum,
        Field::WeightedSum,
    ];

    fn offset(self) -> usize {
        match self {
            Field::Number => 0,
            Field::Used => 2,
            Field::PlainSum => 508,
            Field::WeightedSum => 510,
        }
    }

    /// The field's value in a block.
    pub fn read(self, block: &[u8]) -> usize {
        usize::from(block[self.offset()]) + 256 * usize::from(block[self.offset() + 1])
    }

    /// Writes the field; the value has two bytes.
    pub fn write(self, block: &mut [u8], value: usize) {
        assert!(value < 65_536);
        block[self.offset()] = (value % 256) as u8;
        block[self.offset() + 1] = (value / 256) as u8;
    }
}

/// The sums of a block's bytes 0 to 507: plain and weighted.
pub fn sums(block: &[u8]) -> (usize, usize) {
    let mut plain = 0;
    let mut weighted = 0;
    for (i, &byte) in block[0..=507].iter().enumerate() {
        plain = (plain + usize::from(byte)) % MODULUS;
        weighted = (weighted + (i + 1) * usize::from(byte)) % MODULUS;
    }
    (plain, weighted)
}

/// Writes the sums that the rest of the block calls for.
pub fn write_sums(block: &mut [u8]) {
    let (plain, weighted) = sums(block);
    Field::PlainSum.write(block, plain);
    Field::WeightedSum.write(block, weighted);
}

/// The sealed file of a bundle.
pub fn build(bundle: &[u8]) -> Vec<u8> {
    let mut file = Vec::new();
    for (number, contents) in bundle.chunks(CONTENTS).enumerate() {
        let mut block = [0; BLOCK];
        Field::Number.write(&mut block, number);
        Field::Used.write(&mut block, contents.len());
        block[4..4 + contents.len()].copy_from_slice(contents);
        write_sums(&mut block);
        file.extend(block);
    }
    file
}

/// One block of a file.
pub fn block_mut(file: &mut [u8], index: usize) -> &mut [u8] {
    &mut file[block_range(index)]
}

fn block_range(index: usize) -> Range<usize> {
    index * BLOCK..(index + 1) * BLOCK
}

/// The number of the refusal that a block of a file calls for, if it calls for one:
/// 17 when its number is not its position; else 18 when its used count is wrong, or
/// a byte of its contents that is not used is not zero; else 2 when a sum is wrong.
pub fn broken_rule(file: &[u8], position: usize) -> Option<u8> {
    let block = &file[block_range(position)];
    let is_last = block_range(position).end == file.len();

    if Field::Number.read(block) != position {
        return Some(17);
    }

    let used = Field::Used.read(block);
    if !is_last && used != CONTENTS {
        return Some(18);
    }
    if is_last && !(1..=CONTENTS).contains(&used) {
        return Some(18);
    }
    for unused in used..CONTENTS {
        if block[4 + unused] != 0 {
            return Some(18);
        }
    }

    let (plain, weighted) = sums(block);
    if Field::PlainSum.read(block) != plain {
        return Some(2);
    }
    if Field::WeightedSum.read(block) != weighted {
        return Some(2);
    }
    None
}

/// What a file of a right length has to be refused with for its blocks: what the
/// lowest faulty one calls for. Nothing when every block is sound.
pub fn refused_block(file: &[u8]) -> Option<Refusal> {
    for spot in 0..file.len() / BLOCK {
        if let Some(number) = broken_rule(file, spot) {
            return Some(Refusal { number, spot });
        }
    }
    None
}

/// What a bundle is filled with.
#[derive(Clone, Copy, Debug, PartialEq, Eq)]
pub enum Filling {
    /// Only 0.
    Zeros,
    /// Only 255, for the largest sums.
    Largest,
    /// Random bytes.
    Noise,
}

impl Filling {
    /// All three.
    pub const ALL: [Filling; 3] = [Filling::Zeros, Filling::Largest, Filling::Noise];

    /// A bundle of this length.
    pub fn bundle(self, rng: &mut Rng, length: usize) -> Vec<u8> {
        match self {
            Filling::Zeros => vec![0; length],
            Filling::Largest => vec![255; length],
            Filling::Noise => rng.bytes(length),
        }
    }
}

/// A block count that is at least `least`: mostly small, so that many cases fit
/// in a run, and often the smallest or the largest.
pub fn block_count(rng: &mut Rng, least: usize) -> usize {
    match rng.below(16) {
        0..=3 => least,
        4 => MAX_BLOCKS,
        5 => rng.within(least..=MAX_BLOCKS),
        _ => rng.within(least..=least + 7),
    }
}

/// The length of a bundle with this many blocks, its last used up to `last`.
pub fn bundle_length(blocks: usize, last: usize) -> usize {
    (blocks - 1) * CONTENTS + last
}

/// A random bundle of `block_count(rng, least)` blocks.
pub fn random_bundle(rng: &mut Rng, least: usize) -> Vec<u8> {
    let last = match rng.below(4) {
        0 => rng.choose(&[1, 503, 504]),
        _ => rng.within(1..=CONTENTS),
    };
    let length = bundle_length(block_count(rng, least), last);
    rng.bytes(length)
}

/// Alters contents of a full block until the value of the plain or weighted sum
/// is at most 14, so that the value plus the modulus also fits in two bytes. The
/// block is sound afterwards if its number and used count are.
pub fn make_sum_small(rng: &mut Rng, block: &mut [u8], sum: Field) {
    assert_eq!(Field::Used.read(block), CONTENTS);
    let weight = |i| match sum {
        Field::PlainSum => 1,
        Field::WeightedSum => i + 1,
        Field::Number | Field::Used => panic!("{sum:?} is no sum"),
    };
    let mut total: usize = (0..508).map(|i| weight(i) * usize::from(block[i])).sum();
    // With random contents both sums pass such values often enough.
    while total % MODULUS > 14 {
        let i = rng.within(4..=507);
        let byte = rng.below(256);
        total = total + weight(i) * byte - weight(i) * usize::from(block[i]);
        block[i] = byte as u8;
    }
    write_sums(block);
}
