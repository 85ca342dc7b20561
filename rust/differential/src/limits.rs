//! Bundles up to the limits, with certificates that are known beforehand.

use crate::bundles::{Bundle, Certificate, Place, Term, MAX_TERMS};
use crate::nets::{fitting_place, refusing_place, term, Certified, Step};
use crate::rng::Rng;
use reference::{log_rows, Tally};

/// How large a bundle is. Its log has the words 1 and 0 … 0 1, and beginnings of
/// the latter: so no place refuses event 1 in between.
#[derive(Clone, Copy, Debug)]
pub struct Size {
    /// The event count, at least 2.
    pub n: usize,
    /// How often event 0 is repeated, at least once. There are 3 rows more.
    pub zeros: usize,
    /// The words, at least 2.
    pub words: usize,
    /// The events of all words.
    pub events: usize,
    /// The places, at least 3.
    pub places: usize,
    /// The terms of all certificates of kind 1, at least 2 for each.
    pub terms: usize,
}

/// A bundle with 256 rows, 64 places, 252 words, 1,024 events and 64,512 bytes.
pub const LARGEST: Size = Size {
    n: 12,
    zeros: 253,
    words: 252,
    events: 1_024,
    places: 64,
    terms: 10_779,
};

/// A bundle with 256 rows, 64 places, 255 words, 1,021 events and 64,512 bytes.
pub const MOST_WORDS: Size = Size {
    words: 255,
    events: 1_021,
    ..LARGEST
};

/// The largest bundle that can be converted to the new edition: like [`LARGEST`], with 1,020
/// events and 64,008 bytes. The new edition has a byte more for each of
/// 252 words and 252 certificates of kind 1, and so 64,512.
pub const LARGEST_FITTING: Size = Size {
    events: 1_020,
    terms: 10_679,
    ..LARGEST
};

/// A bundle with 43 rows, 12 places, 20 words, 200 events and 1,630 bytes.
pub const MIDDLE: Size = Size {
    n: 6,
    zeros: 40,
    words: 20,
    events: 200,
    places: 12,
    terms: 117,
};

impl Size {
    /// A bundle of this size that has to be accepted.
    pub fn certified(self, rng: &mut Rng) -> Certified {
        let words = self.log();
        let rows = log_rows(self.n, &words);
        let mut places = self.needed_places();
        while places.len() < self.places {
            places.extend(fitting_place(rng, &rows));
        }
        let places = rng.shuffled(&places);

        let mut certified = Certified {
            bundle: Bundle {
                n: self.n,
                words,
                marks: None,
                places,
                certificates: Vec::new(),
            },
            counts: Tally {
                rows: rows.len(),
                allowed: 0,
                by_place: 0,
                by_weights: 0,
            },
            rows,
        };
        certified.counts.allowed = certified.allowed_steps().len();
        self.certify(rng, &mut certified);
        certified
    }

    fn log(self) -> Vec<Vec<u8>> {
        let mut longest = vec![0; self.zeros];
        longest.push(1);
        let mut words = vec![vec![1], longest];
        let mut left = self.events - self.zeros - 2;
        for words_left in (1..=self.words - 2).rev() {
            let length = left.div_ceil(words_left);
            words.push(vec![0; length]);
            left -= length;
        }
        words
    }

    /// Places that refuse everything that a place can refuse.
    fn needed_places(self) -> Vec<Place> {
        let zeros = Place {
            m: 0,
            ins: vec![0; self.n],
            outs: vec![0; self.n],
        };
        // Nothing follows event 1.
        let mut ends = zeros.clone();
        ends.m = 1;
        ends.ins[0] = 1;
        ends.outs[..2].fill(1);
        // Event 0 occurs only so often.
        let mut most = zeros.clone();
        most.m = self.zeros as u16;
        most.outs[0] = 1;
        // No other event occurs.
        let mut others = zeros;
        others.outs[2..].fill(1);
        vec![ends, most, others]
    }

    fn certify(self, rng: &mut Rng, certified: &mut Certified) {
        let mut certificates_left = self.zeros - 1;
        let mut terms_left = self.terms;
        let last = certified
            .rows
            .iter()
            .position(|row| row.counts[0] == self.zeros && row.counts[1] == 0)
            .expect("the row before the last event 1");
        for step in certified.wrong_continuations() {
            let counts = &certified.rows[step.row].counts;
            let zeros = counts[0];
            let in_between = step.event == 1 && counts[1] == 0;
            let certificate = if in_between {
                certified.counts.by_weights += 1;
                let terms = terms_left.div_ceil(certificates_left);
                terms_left -= terms;
                certificates_left -= 1;
                self.weights(rng, last, zeros, terms)
            } else {
                certified.counts.by_place += 1;
                refusing_place(rng, &certified.bundle.places, &certified.rows, step)
            };
            certified.bundle.certificates.push(certificate);
        }
    }

    /// Weights on event 1 in the last row and in row 0 for a row in between, as
    /// large as they can be, in this many terms.
    fn weights(self, rng: &mut Rng, last: usize, zeros: usize, count: usize) -> Certificate {
        assert!((2..=MAX_TERMS).contains(&count), "{count} terms");
        let factor = 65_535 / self.zeros;
        let weight = |row, times| term(Step { row, event: 1 }, (factor * times) as u16);
        let mut terms = vec![weight(last, zeros), weight(0, self.zeros - zeros)];
        while terms.len() < count {
            let split = rng.below(terms.len());
            let moved = rng.within(0..=terms[split].weight.into()) as u16;
            terms[split].weight -= moved;
            terms.push(Term {
                weight: moved,
                ..terms[split]
            });
        }
        Certificate::Weights {
            k: (factor * self.zeros) as u16,
            terms: rng.shuffled(&terms),
            pairs: Vec::new(),
        }
    }
}
