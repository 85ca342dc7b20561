//! Files that have to be refused, each with a fault.

use crate::files::{
    block_count, block_mut, broken_rule, build, bundle_length, make_sum_small, random_bundle,
    write_sums, Field, BLOCK, CONTENTS, MAX_BLOCKS, MAX_BUNDLE_SIZE, MODULUS,
};
use crate::rng::Rng;
use reference::Refusal;

/// A length that no file may have: refusal 1.
#[derive(Clone, Copy, Debug, PartialEq, Eq)]
pub enum LengthFault {
    /// No byte.
    Empty,
    /// A sound file without its last byte.
    OneByteLess,
    /// A sound file and a further byte.
    OneByteMore,
    /// The front of a sound file, cut inside a block.
    CutInsideBlock,
    /// One block more than allowed; each block by itself is sound.
    OneBlockTooMany,
    /// Far above the limit, a multiple of the block size or not.
    FarTooLong,
}

impl LengthFault {
    /// All of them.
    pub const ALL: [LengthFault; 6] = [
        LengthFault::Empty,
        LengthFault::OneByteLess,
        LengthFault::OneByteMore,
        LengthFault::CutInsideBlock,
        LengthFault::OneBlockTooMany,
        LengthFault::FarTooLong,
    ];

    /// A file with this fault.
    pub fn file(self, rng: &mut Rng) -> Vec<u8> {
        let mut file = build(&random_bundle(rng, 1));
        match self {
            LengthFault::Empty => file.clear(),
            LengthFault::OneByteLess => file.truncate(file.len() - 1),
            LengthFault::OneByteMore => file.push(rng.choose(&[0, 1, 255])),
            LengthFault::CutInsideBlock => {
                let whole_blocks = rng.below(file.len() / BLOCK);
                file.truncate(whole_blocks * BLOCK + rng.within(1..=BLOCK - 1));
            }
            LengthFault::OneBlockTooMany => {
                let last = rng.within(1..=CONTENTS);
                file = build(&rng.bytes(bundle_length(MAX_BLOCKS + 1, last)));
            }
            LengthFault::FarTooLong => {
                let blocks = rng.within(MAX_BLOCKS + 1..=3 * MAX_BLOCKS);
                file = rng.bytes(blocks * BLOCK);
                file.extend(vec![0; rng.choose(&[0, 0, 1, 511])]);
            }
        }
        file
    }
}

/// A way for blocks to break a rule: refusal 17, 18 or 2, at the lowest faulty
/// block. Only the rule that is named is broken, as far as that is possible; in
/// particular the sums are right unless they are the fault.
///
/// Where a fault has one number, it is said here and in [`BlockFault::file`]. Where
/// it depends on the bytes, it is found by [`broken_rule`], a plain reading of the
/// rules.
#[derive(Clone, Copy, Debug, PartialEq, Eq)]
pub enum BlockFault {
    /// Another block number: 17.
    Number,
    /// A block other than the last does not use 504 bytes: 18.
    UsedBeforeLast,
    /// The last block uses no byte, or more than 504: 18.
    UsedInLast,
    /// An unused byte is not zero; the sums count it: 18.
    UnusedByte,
    /// An unused byte is not zero; the sums are those of before: 18.
    UnusedByteOldSums,
    /// Another plain sum: 2.
    PlainSum,
    /// Another weighted sum: 2.
    WeightedSum,
    /// The plain sum plus the modulus, congruent but not reduced: 2.
    PlainSumNotReduced,
    /// The weighted sum plus the modulus, congruent but not reduced: 2.
    WeightedSumNotReduced,
    /// One byte anywhere is another.
    AlteredByte,
    /// Two bytes of one block have changed places.
    SwappedBytes,
    /// Two bytes of different blocks have changed places.
    SwappedBytesOfTwoBlocks,
    /// Two blocks have changed places: 17 at the lower.
    SwappedBlocks,
    /// A block that is not the last is missing: 17 at its position.
    LostBlock,
    /// A block that is not the last stands twice: 17 at the position behind it.
    DoubledBlock,
    /// All blocks stand in another order: 17 at the lowest position whose block is
    /// not its own.
    Shuffled,
    /// Everything after number and used count is noise.
    Noise,
    /// Two blocks each have an altered byte.
    TwoBlocks,
    /// Each block from some on has an altered byte, with even chances.
    ManyBlocks,
    /// A block has another number, wrong contents or wrong sums, or several of
    /// these, and so has the block behind it; each further one, with even chances.
    /// The lowest is named, with 17 before 18 before 2.
    SeveralFaults,
}

impl BlockFault {
    /// All of them.
    pub const ALL: [BlockFault; 20] = [
        BlockFault::Number,
        BlockFault::UsedBeforeLast,
        BlockFault::UsedInLast,
        BlockFault::UnusedByte,
        BlockFault::UnusedByteOldSums,
        BlockFault::PlainSum,
        BlockFault::WeightedSum,
        BlockFault::PlainSumNotReduced,
        BlockFault::WeightedSumNotReduced,
        BlockFault::AlteredByte,
        BlockFault::SwappedBytes,
        BlockFault::SwappedBytesOfTwoBlocks,
        BlockFault::SwappedBlocks,
        BlockFault::LostBlock,
        BlockFault::DoubledBlock,
        BlockFault::Shuffled,
        BlockFault::Noise,
        BlockFault::TwoBlocks,
        BlockFault::ManyBlocks,
        BlockFault::SeveralFaults,
    ];

    /// A file with this fault, and what it has to be refused with.
    pub fn file(self, rng: &mut Rng) -> (Vec<u8>, Refusal) {
        let mut file = build(&self.bundle(rng));
        let (number, spot) = match self {
            BlockFault::Number => (17, alter_number(&mut file, rng)),
            BlockFault::UsedBeforeLast => (18, alter_used_before_last(&mut file, rng)),
            BlockFault::UsedInLast => (18, alter_used_in_last(&mut file, rng)),
            BlockFault::UnusedByte => {
                let last = alter_unused_byte(&mut file, rng);
                write_sums(block_mut(&mut file, last));
                (18, last)
            }
            BlockFault::UnusedByteOldSums => (18, alter_unused_byte(&mut file, rng)),
            BlockFault::PlainSum => (2, alter_sum(&mut file, rng, Field::PlainSum)),
            BlockFault::WeightedSum => (2, alter_sum(&mut file, rng, Field::WeightedSum)),
            BlockFault::PlainSumNotReduced => (2, add_modulus(&mut file, rng, Field::PlainSum)),
            BlockFault::WeightedSumNotReduced => {
                (2, add_modulus(&mut file, rng, Field::WeightedSum))
            }
            BlockFault::SwappedBlocks => (17, swap_blocks(&mut file, rng)),
            BlockFault::LostBlock => (17, lose_block(&mut file, rng)),
            BlockFault::DoubledBlock => (17, double_block(&mut file, rng)),
            BlockFault::Shuffled => (17, shuffle_blocks(&mut file, rng)),
            BlockFault::SeveralFaults => alter_several(&mut file, rng),
            BlockFault::AlteredByte
            | BlockFault::SwappedBytes
            | BlockFault::SwappedBytesOfTwoBlocks
            | BlockFault::Noise
            | BlockFault::TwoBlocks
            | BlockFault::ManyBlocks => {
                let lowest = self.alter_bytes(&mut file, rng);
                let number = broken_rule(&file, lowest);
                (number.expect("the block is faulty"), lowest)
            }
        };
        (file, Refusal { number, spot })
    }

    /// Makes a fault whose number depends on the bytes, and returns the lowest
    /// faulty block.
    fn alter_bytes(self, file: &mut [u8], rng: &mut Rng) -> usize {
        let blocks = file.len() / BLOCK;
        match self {
            BlockFault::SwappedBytesOfTwoBlocks => swap_bytes_of_two_blocks(file, rng),
            BlockFault::TwoBlocks => {
                let (low, high) = rng.two_below(blocks);
                alter_byte(block_mut(file, low), rng);
                alter_byte(block_mut(file, high), rng);
                low
            }
            _ => {
                let lowest = rng.below(blocks);
                let block = block_mut(file, lowest);
                match self {
                    BlockFault::SwappedBytes => swap_bytes(block, rng),
                    BlockFault::Noise => block[4..].copy_from_slice(&rng.bytes(BLOCK - 4)),
                    _ => alter_byte(block, rng),
                }
                if self == BlockFault::ManyBlocks {
                    for higher in lowest + 1..blocks {
                        if rng.below(2) == 0 {
                            alter_byte(block_mut(file, higher), rng);
                        }
                    }
                }
                lowest
            }
        }
    }

    /// A bundle whose file can have this fault.
    fn bundle(self, rng: &mut Rng) -> Vec<u8> {
        match self {
            BlockFault::UsedBeforeLast
            | BlockFault::SwappedBytesOfTwoBlocks
            | BlockFault::SwappedBlocks
            | BlockFault::LostBlock
            | BlockFault::Shuffled
            | BlockFault::TwoBlocks
            | BlockFault::ManyBlocks
            | BlockFault::SeveralFaults => random_bundle(rng, 2),
            BlockFault::DoubledBlock => {
                // One block more is still not too many.
                let mut bundle = random_bundle(rng, 2);
                bundle.truncate(MAX_BUNDLE_SIZE - CONTENTS);
                bundle
            }
            BlockFault::UnusedByte | BlockFault::UnusedByteOldSums => {
                let last = rng.within(1..=CONTENTS - 1);
                let length = bundle_length(block_count(rng, 1), last);
                rng.bytes(length)
            }
            BlockFault::PlainSumNotReduced | BlockFault::WeightedSumNotReduced => {
                let length = bundle_length(block_count(rng, 1), CONTENTS);
                rng.bytes(length)
            }
            _ => random_bundle(rng, 1),
        }
    }
}

// Each of these makes a fault in a sound file, and returns the lowest faulty block.

fn alter_number(file: &mut [u8], rng: &mut Rng) -> usize {
    let index = rng.below(file.len() / BLOCK);
    let block = block_mut(file, index);
    write_other_number(block, index, rng);
    write_sums(block);
    index
}

fn alter_used_before_last(file: &mut [u8], rng: &mut Rng) -> usize {
    let index = rng.below(file.len() / BLOCK - 1);
    write_used(block_mut(file, index), wrong_used(false, rng));
    index
}

fn alter_used_in_last(file: &mut [u8], rng: &mut Rng) -> usize {
    let index = file.len() / BLOCK - 1;
    write_used(block_mut(file, index), wrong_used(true, rng));
    index
}

/// The sums are as they were.
fn alter_unused_byte(file: &mut [u8], rng: &mut Rng) -> usize {
    let index = file.len() / BLOCK - 1;
    set_unused_byte(block_mut(file, index), rng);
    index
}

fn alter_sum(file: &mut [u8], rng: &mut Rng, sum: Field) -> usize {
    let index = rng.below(file.len() / BLOCK);
    write_other_sum(block_mut(file, index), rng, sum);
    index
}

fn add_modulus(file: &mut [u8], rng: &mut Rng, sum: Field) -> usize {
    let index = rng.below(file.len() / BLOCK);
    let block = block_mut(file, index);
    make_sum_small(rng, block, sum);
    sum.write(block, sum.read(block) + MODULUS);
    index
}

fn swap_blocks(file: &mut [u8], rng: &mut Rng) -> usize {
    let (low, high) = rng.two_below(file.len() / BLOCK);
    let (front, back) = file.split_at_mut(high * BLOCK);
    block_mut(front, low).swap_with_slice(block_mut(back, 0));
    low
}

fn lose_block(file: &mut Vec<u8>, rng: &mut Rng) -> usize {
    let index = rng.below(file.len() / BLOCK - 1);
    file.drain(index * BLOCK..(index + 1) * BLOCK);
    index
}

fn double_block(file: &mut Vec<u8>, rng: &mut Rng) -> usize {
    let index = rng.below(file.len() / BLOCK - 1);
    let behind = (index + 1) * BLOCK;
    let block = file[index * BLOCK..behind].to_vec();
    file.splice(behind..behind, block);
    index + 1
}

fn shuffle_blocks(file: &mut Vec<u8>, rng: &mut Rng) -> usize {
    let own: Vec<usize> = (0..file.len() / BLOCK).collect();
    let mut order = own.clone();
    while order == own {
        order = rng.shuffled(&own);
    }
    let blocks = order.iter().map(|&from| block_mut(file, from).to_vec());
    *file = blocks.collect::<Vec<_>>().concat();
    let lowest = own
        .into_iter()
        .find(|&position| order[position] != position);
    lowest.expect("it is another order")
}

fn swap_bytes_of_two_blocks(file: &mut [u8], rng: &mut Rng) -> usize {
    let (low, high) = rng.two_below(file.len() / BLOCK);
    loop {
        let in_low = low * BLOCK + rng.below(BLOCK);
        let in_high = high * BLOCK + rng.below(BLOCK);
        if file[in_low] != file[in_high] {
            file.swap(in_low, in_high);
            return low;
        }
    }
}

/// Returns the number too.
fn alter_several(file: &mut [u8], rng: &mut Rng) -> (u8, usize) {
    let blocks = file.len() / BLOCK;
    let lowest = rng.below(blocks - 1);
    let number = make_faulty(file, lowest, rng);
    for higher in lowest + 1..blocks {
        if higher == lowest + 1 || rng.below(2) == 0 {
            make_faulty(file, higher, rng);
        }
    }
    (number, lowest)
}

/// Gives a block another number, wrong contents or wrong sums, or several of these,
/// and returns what it has to be refused with.
fn make_faulty(file: &mut [u8], index: usize, rng: &mut Rng) -> u8 {
    let is_last = index + 1 == file.len() / BLOCK;
    let block = block_mut(file, index);
    let faults = rng.within(1..=7);
    let [number, contents, sums] = [1, 2, 4].map(|fault| faults & fault != 0);
    if number {
        write_other_number(block, index, rng);
    }
    if contents {
        let has_unused = Field::Used.read(block) < CONTENTS;
        if has_unused && rng.below(2) == 0 {
            set_unused_byte(block, rng);
        } else {
            Field::Used.write(block, wrong_used(is_last, rng));
        }
    }
    write_sums(block);
    if sums {
        let sum = rng.choose(&[Field::PlainSum, Field::WeightedSum]);
        write_other_sum(block, rng, sum);
    }
    match (number, contents) {
        (true, _) => 17,
        (false, true) => 18,
        (false, false) => 2,
    }
}

fn write_other_number(block: &mut [u8], index: usize, rng: &mut Rng) {
    let next_or_high_byte = rng.choose(&[index + 1, index + 256, 65_535]);
    let number = other_than(index, rng, &[0, next_or_high_byte]);
    Field::Number.write(block, number);
}

fn write_other_sum(block: &mut [u8], rng: &mut Rng, sum: Field) {
    let right = sum.read(block);
    let near = [0, right.saturating_sub(1), (right + 1).min(65_535), 65_535];
    sum.write(block, other_than(right, rng, &near));
}

/// A used count that the last block, or another one, can't have.
fn wrong_used(is_last: bool, rng: &mut Rng) -> usize {
    if is_last {
        let above = rng.within(CONTENTS + 1..=65_535);
        return rng.choose(&[0, 505, 506, 512, 760, 65_535, above]);
    }
    other_than(CONTENTS, rng, &[0, 1, 503, 505, 512, 760, 65_535])
}

/// One of these values or any value of two bytes, but not `right`.
fn other_than(right: usize, rng: &mut Rng, values: &[usize]) -> usize {
    loop {
        let any = rng.below(65_536);
        let value = if rng.below(4) == 0 {
            any
        } else {
            rng.choose(values)
        };
        if value != right {
            return value;
        }
    }
}

/// Writes a used count, with unused contents zero and the sums right.
fn write_used(block: &mut [u8], used: usize) {
    Field::Used.write(block, used);
    block[4 + used.min(CONTENTS)..508].fill(0);
    write_sums(block);
}

/// Sets the first, the last or any unused byte of a block that has some.
fn set_unused_byte(block: &mut [u8], rng: &mut Rng) {
    let first = 4 + Field::Used.read(block);
    let any = rng.within(first..=507);
    block[rng.choose(&[first, any, 507])] = rng.nonzero_byte();
}

/// Alters a byte anywhere. No other byte makes a sound block of a sound block:
/// in bytes 0 to 507 it changes the plain sum by less than the modulus.
fn alter_byte(block: &mut [u8], rng: &mut Rng) {
    block[rng.below(BLOCK)] ^= rng.nonzero_byte();
}

/// Swaps two different bytes anywhere. That makes no sound block of a sound
/// block: in bytes 0 to 507 the weighted sum changes by the product of two
/// smaller numbers, and the modulus is prime; elsewhere a stored sum changes.
fn swap_bytes(block: &mut [u8], rng: &mut Rng) {
    loop {
        let (low, high) = rng.two_below(BLOCK);
        if block[low] != block[high] {
            block.swap(low, high);
            return;
        }
    }
}
