//! Bundles of the new edition up to the limits, with certificates that are known
//! beforehand.

use crate::bundles::{Bundle, Certificate, Pair, Place, Term, MAX_PAIRS, MAX_TERMS};
use crate::nets::{add_pairs, refusing_place, term, Certified, Completed, Step};
use crate::rng::Rng;
use reference::{log_rows, Tally};

/// How large a bundle is. Its log has sales, the word 0 1 over and over, which are
/// completed, and the partial word 2: so event 2 can be refused after no sale. Some words
/// are empty, and completed, too.
#[derive(Clone, Copy, Debug)]
pub struct Sales {
    /// The event count, at least 3.
    pub n: usize,
    /// The sales of the longest word, at least 1. There are 2 rows for each, and 2 more.
    pub sales: usize,
    /// The words, at least 4: the longest, the partial one, an empty one, one sale.
    pub words: usize,
    /// The events of all words, an odd number.
    pub events: usize,
    /// The places, at least 3.
    pub places: usize,
    /// The terms of all certificates of kind 1, of which there is one for each sale and one
    /// more; at least one for each.
    pub terms: usize,
    /// The pairs of all of them, at least one for each.
    pub pairs: usize,
}

/// A bundle with 256 rows, 64 places, 255 words, 1,023 events and 64,512 bytes.
pub const LARGEST_NEW: Sales = Sales {
    n: 12,
    sales: 127,
    words: 255,
    events: 1_023,
    places: 64,
    terms: 7_910,
    pairs: 4_736,
};

/// A bundle with 42 rows, 12 places, 20 words and 201 events.
pub const MIDDLE_NEW: Sales = Sales {
    n: 6,
    sales: 20,
    words: 20,
    events: 201,
    places: 12,
    terms: 45,
    pairs: 66,
};

impl Sales {
    /// A bundle of this size that has to be accepted.
    pub fn certified(self, rng: &mut Rng) -> Certified {
        let words = self.log();
        let rows = log_rows(self.n, &words);
        // The word 2 alone is partial.
        let marks = words.iter().map(|word| *word != [2]).collect();
        let mut certified = Certified {
            bundle: Bundle {
                n: self.n,
                words,
                marks: Some(marks),
                places: self.needed_places(),
                certificates: Vec::new(),
            },
            counts: Tally {
                rows: rows.len(),
                allowed: 0,
                by_place: 0,
                by_weights: 0,
            },
            rows,
        };
        while certified.bundle.places.len() < self.places {
            let another = self.another_place(rng, &certified);
            certified.bundle.places.push(another);
        }
        certified.bundle.places = rng.shuffled(&certified.bundle.places);
        certified.counts.allowed = certified.allowed_steps().len();
        self.certify(rng, &mut certified);
        certified
    }

    /// The longest word, the word 2, an empty one, one sale, and words of about the same
    /// length.
    fn log(self) -> Vec<Vec<u8>> {
        let mut words = vec![[0, 1].repeat(self.sales), vec![2], Vec::new(), vec![0, 1]];
        let mut left = (self.events - 1) / 2 - self.sales - 1;
        for words_left in (1..=self.words - 4).rev() {
            let sales = left / words_left;
            words.push([0, 1].repeat(sales));
            left -= sales;
        }
        words
    }

    /// Places that refuse everything that a place can refuse.
    fn needed_places(self) -> Vec<Place> {
        let zeros = Place {
            m: 0,
            ins: vec![0; self.n],
            outs: vec![0; self.n],
        };
        // Event 0 takes the token, event 1 puts it back, event 2 takes it for good.
        let mut idle = zeros.clone();
        idle.m = 1;
        idle.outs[0] = 1;
        idle.ins[1] = 1;
        idle.outs[2] = 1;
        // Event 1 follows event 0.
        let mut busy = zeros.clone();
        busy.ins[0] = 1;
        busy.outs[1] = 1;
        // No other event occurs.
        let mut others = zeros;
        others.outs[3..].fill(1);
        vec![idle, busy, others]
    }

    /// A place from which event 1 takes what event 0 puts in, or the other way round.
    fn another_place(self, rng: &mut Rng, certified: &Certified) -> Place {
        loop {
            let mut number = |largest| rng.within(0..=largest) as u16;
            let mut place = Place {
                m: 0,
                ins: (0..self.n).map(|_| number(300)).collect(),
                outs: (0..self.n).map(|_| number(300)).collect(),
            };
            let [in_0, out_0] = [place.ins[0], place.outs[0]];
            let least = number(9);
            place.ins[1] = out_0.saturating_sub(in_0) + least;
            place.outs[1] = in_0.saturating_sub(out_0) + least;
            if place.make_fit(&certified.rows) {
                return place;
            }
        }
    }

    fn certify(self, rng: &mut Rng, certified: &mut Certified) {
        let completed = certified.completed();
        let mut certificates_left = self.sales + 1;
        let mut terms_left = self.terms;
        let mut pairs_left = self.pairs;
        for step in certified.wrong_continuations() {
            let counts = &certified.rows[step.row].counts;
            let is_idle = counts[0] == counts[1] && counts[2] == 0;
            let certificate = if is_idle && [0, 2].contains(&step.event) {
                certified.counts.by_weights += 1;
                let terms = terms_left.div_ceil(certificates_left);
                let pairs = pairs_left.div_ceil(certificates_left);
                terms_left -= terms;
                pairs_left -= pairs;
                certificates_left -= 1;
                weights(rng, &completed, step.event, counts[0], [terms, pairs])
            } else {
                certified.counts.by_place += 1;
                refusing_place(rng, &certified.bundle.places, &certified.rows, step)
            };
            certified.bundle.certificates.push(certificate);
        }
    }
}

/// Weights on an event in row 0, and pairs that add so many sales, in so many terms and
/// pairs.
fn weights(
    rng: &mut Rng,
    completed: &[Completed],
    event: usize,
    sales: usize,
    [terms, pairs]: [usize; 2],
) -> Certificate {
    assert!((1..=MAX_TERMS).contains(&terms), "{terms} terms");
    assert!((1..=MAX_PAIRS).contains(&pairs), "{pairs} pairs");
    let k = rng.within(1..=32_767 / sales) as u16;
    let mut list = vec![term(Step { row: 0, event }, k)];
    while list.len() < terms {
        let split = rng.below(list.len());
        let moved = rng.within(0..=list[split].weight.into()) as u16;
        list[split].weight -= moved;
        list.push(Term {
            weight: moved,
            ..list[split]
        });
    }
    let one_sale = completed.iter().find(|word| word.counts[0] == 1);
    let mut of_words = vec![Pair {
        word: one_sale.expect("a word of one sale").word,
        weight: (usize::from(k) * sales) as i16,
    }];
    add_pairs(rng, completed, &mut of_words, pairs);
    Certificate::Weights {
        k,
        terms: rng.shuffled(&list),
        pairs: rng.shuffled(&of_words),
    }
}

/// The completed word of so many events 0, and the certificate for one event more: weight
/// k on event 0 at first, and these pairs.
pub fn one_event(length: usize, k: u16, pairs: Vec<Pair>) -> Bundle {
    let first = Step { row: 0, event: 0 };
    Bundle {
        n: 1,
        words: vec![vec![0; length]],
        marks: Some(vec![true]),
        places: Vec::new(),
        certificates: vec![Certificate::Weights {
            k,
            terms: vec![term(first, k)],
            pairs,
        }],
    }
}
