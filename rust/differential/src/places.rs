//! Places over whole numbers of any size, by the definitions.

use crate::bundles;
use crate::rng::Rng;
use reference::Row;

/// A place, with a number for each event in `ins` and in `outs`.
#[derive(Clone, Debug, PartialEq, Eq)]
pub struct Place {
    /// The initial tokens.
    pub m: i128,
    /// The tokens that each event puts into the place.
    pub ins: Vec<i128>,
    /// The tokens that each event takes out of the place.
    pub outs: Vec<i128>,
}

impl Place {
    /// The tokens after events with these counts: m + sum of v(i) × (in(i) − out(i)).
    pub fn tokens(&self, v: &[usize]) -> i128 {
        let mut tokens = self.m;
        for (i, &count) in v.iter().enumerate() {
            tokens += count as i128 * (self.ins[i] - self.outs[i]);
        }
        tokens
    }

    /// m + sum of v(i) × (in(i) − out(i)) − out(e).
    pub fn surplus(&self, v: &[usize], e: usize) -> i128 {
        self.tokens(v) - self.outs[e]
    }

    /// How many tokens are missing where the place refuses: out(e) minus those that
    /// are there.
    pub fn shortfall(&self, v: &[usize], e: usize) -> usize {
        let missing = self.outs[e] - self.tokens(v);
        usize::try_from(missing).expect("the place refuses the step")
    }

    /// A random place that fits, with numbers of up to 64 bits besides the initial
    /// tokens. It often has the fewest of these.
    pub fn fitting(rng: &mut Rng, rows: &[Row]) -> Self {
        let n = rows[0].counts.len();
        let bits = rng.choose(&[1, 2, 8, 17, 40, 64]);
        let zeros = rng.choose(&[0, 1, 3]);
        let mut number = || match rng.below(1 + zeros) {
            0 => i128::from(rng.number() >> (64 - bits)),
            _ => 0,
        };
        let mut place = Self {
            m: 0,
            ins: (0..n).map(|_| number()).collect(),
            outs: (0..n).map(|_| number()).collect(),
        };
        let spare = rng.choose(&[0, 0, 0, 1, 1 << 50]);
        for row in rows {
            for e in (0..n).filter(|&e| row.allowed[e]) {
                place.m = place.m.max(place.m - place.surplus(&row.counts, e));
            }
        }
        place.m += spare;
        place
    }

    /// The place with all its numbers multiplied.
    pub fn times(&self, factor: i128) -> Self {
        let times = |numbers: &[i128]| numbers.iter().map(|number| factor * number).collect();
        Self {
            m: factor * self.m,
            ins: times(&self.ins),
            outs: times(&self.outs),
        }
    }

    /// Whether events with these counts leave the tokens as they were: the sum of
    /// u(i) × (in(i) − out(i)) is 0.
    pub fn returns(&self, u: &[usize]) -> bool {
        self.tokens(u) == self.m
    }

    /// Whether the place permits every allowed step.
    pub fn fits(&self, rows: &[Row]) -> bool {
        rows.iter().all(|row| {
            (0..row.counts.len()).all(|e| !row.allowed[e] || self.surplus(&row.counts, e) >= 0)
        })
    }
}

impl From<&bundles::Place> for Place {
    fn from(place: &bundles::Place) -> Self {
        let whole = |numbers: &[u16]| numbers.iter().map(|&number| number.into()).collect();
        Self {
            m: place.m.into(),
            ins: whole(&place.ins),
            outs: whole(&place.outs),
        }
    }
}

/// A refused step of a word.
#[derive(Clone, Copy, Debug, PartialEq, Eq)]
pub struct Refused {
    /// The position of the step.
    pub position: usize,
    /// The lowest place that refuses it.
    pub place: usize,
    /// How many tokens are missing in this place.
    pub shortfall: usize,
}

/// The first step of a word over `n` events that is not permitted by every place.
pub fn first_refused(n: usize, places: &[Place], word: &[u8]) -> Option<Refused> {
    let mut v = vec![0; n];
    for (position, &event) in word.iter().enumerate() {
        let e = usize::from(event);
        let refusing = places.iter().position(|place| place.surplus(&v, e) < 0);
        if let Some(place) = refusing {
            return Some(Refused {
                position,
                place,
                shortfall: places[place].shortfall(&v, e),
            });
        }
        v[e] += 1;
    }
    None
}
