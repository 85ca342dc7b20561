//! The parts of an accepted bundle, read again without tests.

use crate::reader::Edition;
use std::iter;

/// An accepted bundle without its place count.
pub struct Parts<'b> {
    pub edition: Edition,
    /// The event count and the words.
    pub head: &'b [u8],
    pub places: &'b [u8],
    /// The bytes of a place.
    pub place_size: usize,
    pub certificates: &'b [u8],
}

/// A certificate, by where it has what a new bundle may have otherwise.
pub enum Certificate {
    /// Kind 0: where its place's number is.
    Place { listed_at: usize },
    /// Kind 1: where its terms end.
    Weights { terms_end: usize },
}

impl<'b> Parts<'b> {
    pub fn of(bundle: &'b [u8]) -> Self {
        let (edition, n) = Edition::of(bundle[0]);
        let words_end = words_at(edition, bundle)
            .last()
            .map_or(2, |at| word_end(edition, bundle, at));
        let (head, rest) = bundle.split_at(words_end);
        // m, and in and out for each event, in two bytes each.
        let place_size = 2 + 4 * usize::from(n);
        let (places, certificates) = rest[1..].split_at(usize::from(rest[0]) * place_size);
        Self {
            edition,
            head,
            places,
            place_size,
            certificates,
        }
    }

    pub fn word_count(&self) -> usize {
        self.head[1].into()
    }

    /// Where in the head each word has its length.
    pub fn words_at(&self) -> impl Iterator<Item = usize> + 'b {
        words_at(self.edition, self.head)
    }

    /// The certificates, by where they stand in their part.
    pub fn each_certificate(&self) -> impl Iterator<Item = Certificate> + 'b {
        let certificates = self.certificates;
        let is_new = self.edition == Edition::New;
        let mut next = 0;
        iter::from_fn(move || {
            let at = next;
            if *certificates.get(at)? == 0 {
                next = at + 2;
                return Some(Certificate::Place { listed_at: at + 1 });
            }
            // The kind, k and the term count; then a row, an event and a weight each.
            let terms_end = at + 4 + 5 * usize::from(certificates[at + 3]);
            next = terms_end;
            if is_new {
                // The pair count; then a word and a weight each.
                next += 1 + 3 * usize::from(certificates[terms_end]);
            }
            Some(Certificate::Weights { terms_end })
        })
    }
}

/// Where a bundle, or its head, has the lengths of its words.
fn words_at(edition: Edition, bundle: &[u8]) -> impl Iterator<Item = usize> + '_ {
    let mut next = 2;
    (0..bundle[1]).map(move |_| {
        let at = next;
        next = word_end(edition, bundle, at);
        at
    })
}

/// Where a word ends.
fn word_end(edition: Edition, bundle: &[u8], at: usize) -> usize {
    // The length, and in the new edition the mark.
    let before_events = 1 + usize::from(edition == Edition::New);
    at + before_events + usize::from(bundle[at])
}
