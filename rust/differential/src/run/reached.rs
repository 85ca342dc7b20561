//! The search for a word, to which five bytes are lent.

use super::{Outcome, Run, Written};
use crate::reaching::MOST;
use hovmekhar::ffi;

/// What is noted of a word, by its length.
const LENGTHS: [&str; 1 + MOST] = [
    "no event", "1 event", "2 events", "3 events", "4 events", "5 events",
];

impl Run {
    /// Looks for a word on both sides and compares. Only the bytes of a word may change, in
    /// front of the five. Notes how many events it has, or that there is none.
    pub fn reach(&mut self, bundle: &[u8], wanted: usize) -> Outcome<Option<Vec<u8>>> {
        let noise = self.rng.bytes(MOST);
        let (outcome, _) = self.compare(
            [bundle],
            noise,
            |[bundle], word, answer| {
                let word = word.try_into().expect("five bytes");
                ffi::reach(bundle, wanted, word, answer)
            },
            |[bundle], lent| {
                let word = reference::reach(bundle, wanted)?;
                if let Some(word) = &word {
                    lent[..word.len()].copy_from_slice(word);
                }
                Ok(word)
            },
            written,
            super::nothing,
        );
        match &outcome {
            Ok(Some(word)) => self.note(LENGTHS[word.len()]),
            Ok(None) => self.note("none"),
            Err(_) => (),
        }
        outcome
    }
}

fn written(word: &Option<Vec<u8>>) -> Written {
    match word {
        Some(word) => Written {
            number: 0,
            answer: vec![word.len() as u64],
            items: word.len(),
        },
        None => Written {
            number: ffi::NONE,
            answer: Vec::new(),
            items: 0,
        },
    }
}
