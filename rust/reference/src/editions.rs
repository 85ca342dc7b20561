//! Conversion: an accepted bundle in the other edition.
//!
//! What was judged is read again, without tests. The new edition has a byte more in each
//! word and in each certificate of kind 1; all else, but for the first byte, is copied in
//! pieces.

use crate::blocks::MAX_BUNDLE_SIZE;
use crate::judging::judge;
use crate::parts::{Certificate, Parts};
use crate::reader::{Edition, NEW};
use crate::Refusal;

/// Judges a bundle, and writes it to the front of `output` in the new edition, with all
/// words partial where it has the old one. `table` is as [`judge`] leaves it.
///
/// Returns the length of the result.
///
/// # Errors
///
/// As for [`judge`], else 4 when the result is above 64,512 bytes, else 3 with the length
/// needed when `output` is shorter than the result; `output` is then as it was.
pub fn to_new(bundle: &[u8], output: &mut [u8], table: &mut [u16]) -> Result<usize, Refusal> {
    let by_weights = judge(bundle, table)?.by_weights;
    let parts = Parts::of(bundle);
    if parts.edition == Edition::New {
        return copy(bundle, output);
    }
    let length = bundle.len() + parts.word_count() + by_weights;
    if length > MAX_BUNDLE_SIZE {
        return Err(Refusal { number: 4, spot: 0 });
    }
    let mut writer = Writer::new(output, length)?;
    writer.put(&[NEW + bundle[0]]);
    let mut from = 1;
    for at in only_in_new(&parts, bundle.len()) {
        writer.put(&bundle[from..at]);
        writer.put(&[0]);
        from = at;
    }
    writer.put(&bundle[from..]);
    Ok(length)
}

/// Judges a bundle, and writes it to the front of `output` in the old edition. `table` is as
/// [`judge`] leaves it.
///
/// Returns the length of the result.
///
/// # Errors
///
/// As for [`judge`], else 21 with the number of the first completed word, else 3 with the
/// length needed when `output` is shorter than the result; `output` is then as it was.
pub fn to_old(bundle: &[u8], output: &mut [u8], table: &mut [u16]) -> Result<usize, Refusal> {
    let by_weights = judge(bundle, table)?.by_weights;
    let parts = Parts::of(bundle);
    if parts.edition == Edition::Old {
        return copy(bundle, output);
    }
    let mut marks = parts.words_at().map(|at| bundle[at + 1]);
    if let Some(spot) = marks.position(|mark| mark == 1) {
        return Err(Refusal { number: 21, spot });
    }
    let length = bundle.len() - parts.word_count() - by_weights;
    let mut writer = Writer::new(output, length)?;
    writer.put(&[bundle[0] - NEW]);
    let mut from = 1;
    for at in only_in_new(&parts, bundle.len()) {
        writer.put(&bundle[from..at]);
        from = at + 1;
    }
    writer.put(&bundle[from..]);
    Ok(length)
}

/// Where a bundle of this length has the bytes that only the new edition has, or would have
/// them: behind the length of each word and behind the terms of each certificate of kind 1.
fn only_in_new<'b>(parts: &Parts<'b>, length: usize) -> impl Iterator<Item = usize> + 'b {
    let certificates_at = length - parts.certificates.len();
    let marks = parts.words_at().map(|at| at + 1);
    let pair_counts = parts
        .each_certificate()
        .filter_map(move |certificate| match certificate {
            Certificate::Place { .. } => None,
            Certificate::Weights { terms_end } => Some(certificates_at + terms_end),
        });
    marks.chain(pair_counts)
}

/// A bundle that already has the edition that is wanted.
fn copy(bundle: &[u8], output: &mut [u8]) -> Result<usize, Refusal> {
    Writer::new(output, bundle.len())?.put(bundle);
    Ok(bundle.len())
}

/// What is left of an output that takes a result of a known length.
struct Writer<'o> {
    left: &'o mut [u8],
}

impl<'o> Writer<'o> {
    /// # Errors
    ///
    /// 3 with the length when the output is shorter.
    fn new(output: &'o mut [u8], length: usize) -> Result<Self, Refusal> {
        match output.get_mut(..length) {
            Some(left) => Ok(Self { left }),
            None => Err(Refusal {
                number: 3,
                spot: length,
            }),
        }
    }

    fn put(&mut self, bytes: &[u8]) {
        let (front, left) = std::mem::take(&mut self.left).split_at_mut(bytes.len());
        front.copy_from_slice(bytes);
        self.left = left;
    }
}
