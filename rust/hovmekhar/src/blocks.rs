//! Opening and sealing.

use crate::ffi::{self, Answer};
use crate::Refusal;

/// Bytes of a block.
pub const BLOCK_SIZE: usize = 512;

/// Bytes of a block's contents.
pub const CONTENTS_SIZE: usize = 504;

/// The largest number of blocks in a sealed file.
pub const MAX_BLOCKS: usize = 128;

/// The largest length of a sealed file.
pub const MAX_FILE_SIZE: usize = MAX_BLOCKS * BLOCK_SIZE;

/// The largest length of a bundle.
pub const MAX_BUNDLE_SIZE: usize = MAX_BLOCKS * CONTENTS_SIZE;

/// Opens a sealed file: checks every block, then writes the bundle to the front
/// of `output` and returns its length. The rest of `output` stays as it was.
///
/// An output of [`MAX_BUNDLE_SIZE`] bytes is long enough for every file.
///
/// # Errors
///
/// The first of these that applies; `output` is then as it was:
/// [`Refusal::FILE_LENGTH`]; of the lowest faulty block [`Refusal::BLOCK_NUMBER`],
/// [`Refusal::BLOCK_USE`], [`Refusal::BLOCK_SUMS`]; [`Refusal::OUTPUT_SHORT`].
///
/// ```
/// let file = hovmekhar::seal_vec(&[1, 0, 0])?;
/// let mut output = [9; 5];
/// assert_eq!(hovmekhar::open(&file, &mut output)?, 3);
/// assert_eq!(output, [1, 0, 0, 9, 9]);
/// # Ok::<(), hovmekhar::Refusal>(())
/// ```
pub fn open(file: &[u8], output: &mut [u8]) -> Result<usize, Refusal> {
    let mut answer = Answer::default();
    let number = ffi::open(file, output, &mut answer);
    length_or_refusal(number, answer)
}

/// Seals a bundle: writes the sealed file to the front of `output` and returns
/// its length. The rest of `output` stays as it was.
///
/// An output of [`MAX_FILE_SIZE`] bytes is long enough for every bundle.
///
/// # Errors
///
/// The first of these that applies; `output` is then as it was:
/// [`Refusal::BUNDLE_LENGTH`], [`Refusal::OUTPUT_SHORT`].
///
/// ```
/// use hovmekhar::Refusal;
///
/// let mut output = [0; hovmekhar::BLOCK_SIZE];
/// assert_eq!(hovmekhar::seal(&[1, 0, 0], &mut output), Ok(512));
///
/// let refusal = hovmekhar::seal(&[1; 505], &mut output).unwrap_err();
/// assert_eq!(refusal.number, Refusal::OUTPUT_SHORT);
/// assert_eq!(refusal.spot, 1024);
/// ```
pub fn seal(bundle: &[u8], output: &mut [u8]) -> Result<usize, Refusal> {
    let mut answer = Answer::default();
    let number = ffi::seal(bundle, output, &mut answer);
    length_or_refusal(number, answer)
}

/// Opens a sealed file and returns the bundle.
///
/// # Errors
///
/// As for [`open`], without [`Refusal::OUTPUT_SHORT`].
pub fn open_vec(file: &[u8]) -> Result<Vec<u8>, Refusal> {
    let capacity = file.len() / BLOCK_SIZE * CONTENTS_SIZE;
    // A longer file is refused, so it needs no longer output.
    let mut bundle = vec![0; capacity.min(MAX_BUNDLE_SIZE)];
    let length = open(file, &mut bundle)?;
    bundle.truncate(length);
    Ok(bundle)
}

/// Seals a bundle and returns the sealed file.
///
/// # Errors
///
/// [`Refusal::BUNDLE_LENGTH`].
pub fn seal_vec(bundle: &[u8]) -> Result<Vec<u8>, Refusal> {
    let blocks = bundle.len().div_ceil(CONTENTS_SIZE);
    // A longer bundle is refused, so it needs no longer output.
    let mut file = vec![0; blocks.min(MAX_BLOCKS) * BLOCK_SIZE];
    let length = seal(bundle, &mut file)?;
    file.truncate(length);
    Ok(file)
}

/// Reads what a call of the library returned: 0 and a length, or a refusal's
/// number and spot.
pub(crate) fn length_or_refusal(number: u32, answer: Answer) -> Result<usize, Refusal> {
    Refusal::check(number, answer)?;
    // `usize` has 64 bits here, so the conversion keeps the value.
    Ok(answer[0] as usize)
}
