//! The block layer.
//!
//! A block is 512 bytes: number, used count, 504 bytes of contents, plain sum
//! and weighted sum. All four numbers have two bytes, low byte first.

use crate::Refusal;
use std::ops::Range;

const BLOCK: usize = 512;
const CONTENTS: usize = 504;
const MAX_FILE_SIZE: usize = 128 * BLOCK;
pub(crate) const MAX_BUNDLE_SIZE: usize = 128 * CONTENTS;

const NUMBER: Range<usize> = 0..2;
const USED: Range<usize> = 2..4;
const CONTENTS_START: usize = 4;
const PLAIN_SUM: Range<usize> = 508..510;
const WEIGHTED_SUM: Range<usize> = 510..512;

/// The sums cover the bytes before them.
const COVERED: Range<usize> = 0..508;
const MODULUS: u32 = 65_521;

/// Checks a sealed file and writes its bundle to the front of `output`.
///
/// Returns the bundle's length.
///
/// # Errors
///
/// The first that applies; `output` is then as it was:
/// 1 when the file's length is wrong; then, with the position of the lowest block
/// that breaks a rule, 17 when its number is not its position, else 18 when its
/// used count is wrong or an unused byte of its contents is not zero, else 2 when
/// a sum is wrong; 3 with the length needed when `output` is shorter than the
/// bundle.
pub fn open(file: &[u8], output: &mut [u8]) -> Result<usize, Refusal> {
    if file.is_empty() || file.len() % BLOCK != 0 || file.len() > MAX_FILE_SIZE {
        return Err(Refusal { number: 1, spot: 0 });
    }

    let last = file.len() / BLOCK - 1;
    for (index, block) in file.chunks_exact(BLOCK).enumerate() {
        if let Some(number) = broken_rule(block, index, index == last) {
            return Err(Refusal {
                number,
                spot: index,
            });
        }
    }

    let length = last * CONTENTS + used_count(&file[last * BLOCK..]);
    let Some(bundle) = output.get_mut(..length) else {
        return Err(Refusal {
            number: 3,
            spot: length,
        });
    };
    for (part, block) in bundle.chunks_mut(CONTENTS).zip(file.chunks_exact(BLOCK)) {
        part.copy_from_slice(&block[CONTENTS_START..][..part.len()]);
    }
    Ok(length)
}

/// Writes the sealed file of a bundle to the front of `output`.
///
/// Returns the file's length.
///
/// # Errors
///
/// The first that applies; `output` is then as it was:
/// 4 when the bundle's length is wrong, 3 with the length needed when `output`
/// is shorter than the file.
pub fn seal(bundle: &[u8], output: &mut [u8]) -> Result<usize, Refusal> {
    if bundle.is_empty() || bundle.len() > MAX_BUNDLE_SIZE {
        return Err(Refusal { number: 4, spot: 0 });
    }

    let length = bundle.len().div_ceil(CONTENTS) * BLOCK;
    let Some(file) = output.get_mut(..length) else {
        return Err(Refusal {
            number: 3,
            spot: length,
        });
    };
    for ((number, part), block) in (0u16..)
        .zip(bundle.chunks(CONTENTS))
        .zip(file.chunks_exact_mut(BLOCK))
    {
        write_block(block, number, part);
    }
    Ok(length)
}

/// The refusal number of the first rule that a block breaks, if it breaks one.
fn broken_rule(block: &[u8], index: usize, is_last: bool) -> Option<u8> {
    if usize::from(number_at(block, NUMBER)) != index {
        Some(17)
    } else if !contents_are_right(block, is_last) {
        Some(18)
    } else if sums(block) != (number_at(block, PLAIN_SUM), number_at(block, WEIGHTED_SUM)) {
        Some(2)
    } else {
        None
    }
}

/// Whether the used count is right and every byte that is not used is zero.
fn contents_are_right(block: &[u8], is_last: bool) -> bool {
    let used = used_count(block);
    let used_is_right = if is_last {
        (1..=CONTENTS).contains(&used)
    } else {
        used == CONTENTS
    };
    used_is_right
        && block[CONTENTS_START + used..COVERED.end]
            .iter()
            .all(|&byte| byte == 0)
}

fn write_block(block: &mut [u8], number: u16, part: &[u8]) {
    // A part is one chunk of a bundle, so its length fits.
    let used = part.len() as u16;
    block[NUMBER].copy_from_slice(&number.to_le_bytes());
    block[USED].copy_from_slice(&used.to_le_bytes());
    let (contents, unused) = block[CONTENTS_START..COVERED.end].split_at_mut(part.len());
    contents.copy_from_slice(part);
    unused.fill(0);

    let (plain, weighted) = sums(block);
    block[PLAIN_SUM].copy_from_slice(&plain.to_le_bytes());
    block[WEIGHTED_SUM].copy_from_slice(&weighted.to_le_bytes());
}

/// The plain and the weighted sum of a block.
///
/// Without reduction they stay below 130,000 and 33,000,000, so one reduction
/// at the end is enough.
fn sums(block: &[u8]) -> (u16, u16) {
    let (plain, weighted) =
        block[COVERED]
            .iter()
            .zip(1u32..)
            .fold((0, 0), |(plain, weighted), (&byte, weight)| {
                let byte = u32::from(byte);
                (plain + byte, weighted + weight * byte)
            });
    ((plain % MODULUS) as u16, (weighted % MODULUS) as u16)
}

fn used_count(block: &[u8]) -> usize {
    number_at(block, USED).into()
}

fn number_at(block: &[u8], field: Range<usize>) -> u16 {
    let bytes = &block[field];
    u16::from_le_bytes([bytes[0], bytes[1]])
}
