//! Pruning: an accepted bundle without the places that no certificate names.
//!
//! What was judged is read again, without tests. Only the places and the numbers in the
//! certificates of kind 0 change; all else is copied in pieces.

use crate::judging::judge;
use crate::parts::{Certificate, Parts};
use crate::places::MAX_PLACES;
use crate::Refusal;

/// Judges a bundle, and writes it to the front of `output` without the places that no
/// certificate of kind 0 names. `table` is as [`judge`] leaves it.
///
/// Returns the length of the result.
///
/// # Errors
///
/// As for [`judge`], else 3 with the length needed when `output` is shorter than the
/// result; `output` is then as it was.
pub fn prune(bundle: &[u8], output: &mut [u8], table: &mut [u16]) -> Result<usize, Refusal> {
    judge(bundle, table)?;
    let parts = Parts::of(bundle);
    let Parts {
        head,
        places,
        place_size,
        certificates,
        ..
    } = parts;

    let mut named = [false; MAX_PLACES as usize];
    for at in listed_at(&parts) {
        named[usize::from(certificates[at])] = true;
    }
    let stay = || {
        places
            .chunks_exact(place_size)
            .zip(named)
            .filter(|&(_, named)| named)
    };

    // There are at most 64 places.
    let count = stay().count();
    let length = head.len() + 1 + count * place_size + certificates.len();
    let Some(output) = output.get_mut(..length) else {
        return Err(Refusal {
            number: 3,
            spot: length,
        });
    };
    let (new_head, output) = output.split_at_mut(head.len());
    new_head.copy_from_slice(head);
    output[0] = count as u8;
    let (new_places, new_certificates) = output[1..].split_at_mut(count * place_size);
    for (new_place, (place, _)) in new_places.chunks_exact_mut(place_size).zip(stay()) {
        new_place.copy_from_slice(place);
    }
    new_certificates.copy_from_slice(certificates);

    // For each place how many of those that stay are before it.
    let mut before = 0;
    let numbers = named.map(|named| {
        before += u8::from(named);
        before - u8::from(named)
    });
    for at in listed_at(&parts) {
        new_certificates[at] = numbers[usize::from(certificates[at])];
    }
    Ok(length)
}

/// Where in the certificates those of kind 0 have their place's number.
fn listed_at<'b>(parts: &Parts<'b>) -> impl Iterator<Item = usize> + 'b {
    parts
        .each_certificate()
        .filter_map(|certificate| match certificate {
            Certificate::Place { listed_at } => Some(listed_at),
            Certificate::Weights { .. } => None,
        })
}
