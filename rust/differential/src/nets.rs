//! Nets and certificates for logs, so that their bundles are accepted.

mod marks;
mod solving;

use crate::bundles::{Bundle, Certificate, Place, Term, MAX_PLACES};
use crate::logs::{counts_below, random_word, Shape, MAX_EVENTS, MAX_ROWS};
use crate::rng::Rng;
use reference::{log_rows, Row, Tally};
use solving::{decide, rewrite};

pub use marks::marked_log;
pub use solving::{add_pairs, obeying_place, strictest_net, weights_but_for};

/// A bundle that has to be accepted.
#[derive(Clone, Debug)]
pub struct Certified {
    /// The bundle.
    pub bundle: Bundle,
    /// The rows of its log.
    pub rows: Vec<Row>,
    /// The counts to be answered.
    pub counts: Tally,
}

impl Certified {
    /// The wrong continuations, each the step that the certificate with its
    /// number is for.
    pub fn wrong_continuations(&self) -> Vec<Step> {
        steps(&self.rows, false)
    }

    /// The allowed steps.
    pub fn allowed_steps(&self) -> Vec<Step> {
        steps(&self.rows, true)
    }

    /// The completed words.
    pub fn completed(&self) -> Vec<Completed> {
        completed(&self.bundle)
    }

    /// A random place that fits and obeys, or nothing when its numbers would be too
    /// large.
    pub fn another_place(&self, rng: &mut Rng) -> Option<Place> {
        any_place(rng, &self.rows, &self.completed())
    }
}

/// A completed word.
#[derive(Clone, Debug, PartialEq, Eq)]
pub struct Completed {
    /// Its number.
    pub word: u8,
    /// How often each event occurs in it.
    pub counts: Vec<usize>,
}

/// The completed words of a bundle.
pub fn completed(bundle: &Bundle) -> Vec<Completed> {
    let words = bundle.words.iter().enumerate();
    words
        .filter(|&(number, _)| bundle.is_completed(number))
        .map(|(number, word)| Completed {
            word: number as u8,
            counts: counts_below(bundle.n, word),
        })
        .collect()
}

/// An event after the counts of a row.
#[derive(Clone, Copy, Debug, PartialEq, Eq)]
pub struct Step {
    /// The row.
    pub row: usize,
    /// The event.
    pub event: usize,
}

/// The steps that are allowed, or those that are not, by row and then by event.
fn steps(rows: &[Row], allowed: bool) -> Vec<Step> {
    let mut steps = Vec::new();
    for (row, Row { allowed: is, .. }) in rows.iter().enumerate() {
        let events = (0..is.len()).filter(|&event| is[event] == allowed);
        steps.extend(events.map(|event| Step { row, event }));
    }
    steps
}

impl Place {
    /// m + sum of v(i) × (in(i) − out(i)) − out(e).
    pub fn surplus(&self, v: &[usize], e: usize) -> i64 {
        let changes = v.iter().zip(&self.ins).zip(&self.outs);
        let sum: i64 = changes
            .map(|((&count, &puts), &takes)| count as i64 * (i64::from(puts) - i64::from(takes)))
            .sum();
        i64::from(self.m) + sum - i64::from(self.outs[e])
    }

    /// Whether the place refuses a step.
    pub fn refuses(&self, rows: &[Row], step: Step) -> bool {
        self.surplus(&rows[step.row].counts, step.event) < 0
    }

    /// Gives the place the fewest initial tokens with which it fits. Whether two
    /// bytes are enough for them.
    pub fn make_fit(&mut self, rows: &[Row]) -> bool {
        self.m = 0;
        let least = steps(rows, true)
            .into_iter()
            .map(|step| -self.surplus(&rows[step.row].counts, step.event))
            .fold(0, i64::max);
        match u16::try_from(least) {
            Ok(least) => {
                self.m = least;
                true
            }
            Err(_) => false,
        }
    }
}

/// A random place that fits and obeys completed words, or nothing when its numbers would
/// be too large.
fn any_place(rng: &mut Rng, rows: &[Row], completed: &[Completed]) -> Option<Place> {
    match completed {
        [] => fitting_place(rng, rows),
        _ => obeying_place(rng, rows, completed),
    }
}

/// A random place that fits, or nothing when its tokens would be too many.
pub fn fitting_place(rng: &mut Rng, rows: &[Row]) -> Option<Place> {
    let n = rows[0].counts.len();
    let largest = rng.choose(&[1, 1, 2, 5, 300, 65_535]);
    let zeros = rng.choose(&[0, 1, 3, 8]);
    let mut numbers = || -> Vec<u16> {
        (0..n)
            .map(|_| match rng.below(1 + zeros) {
                0 => rng.within(0..=largest) as u16,
                _ => 0,
            })
            .collect()
    };
    let mut place = Place {
        m: 0,
        ins: numbers(),
        outs: numbers(),
    };
    if !place.make_fit(rows) {
        return None;
    }
    let spare = rng.choose(&[0, 0, 0, 1, 7]);
    place.m = place.m.saturating_add(spare);
    Some(place)
}

/// A weight on a step.
pub fn term(step: Step, weight: u16) -> Term {
    Term {
        row: step.row as u16,
        event: step.event as u8,
        weight,
    }
}

/// A certificate that lists any one of the places that refuse a step; there is
/// one.
pub fn refusing_place(rng: &mut Rng, places: &[Place], rows: &[Row], step: Step) -> Certificate {
    let refusing: Vec<u8> = (0u8..)
        .zip(places)
        .filter(|(_, place)| place.refuses(rows, step))
        .map(|(number, _)| number)
        .collect();
    Certificate::Place(rng.choose(&refusing))
}

/// A net and certificates for a log, in the old edition. Nothing when it has too many
/// rows, or more places or larger numbers are needed than a bundle has room for.
pub fn certified(rng: &mut Rng, n: usize, words: Vec<Vec<u8>>) -> Option<Certified> {
    certified_marked(rng, n, words, None)
}

/// A net and certificates for a log, as [`certified`] has them; with marks in the new
/// edition.
pub fn certified_marked(
    rng: &mut Rng,
    n: usize,
    words: Vec<Vec<u8>>,
    marks: Option<Vec<bool>>,
) -> Option<Certified> {
    let rows = log_rows(n, &words);
    if rows.len() > MAX_ROWS {
        return None;
    }
    let mut bundle = Bundle {
        n,
        words,
        marks,
        places: Vec::new(),
        certificates: Vec::new(),
    };
    let completed = completed(&bundle);
    let allowed = steps(&rows, true);
    let wrong = steps(&rows, false);

    let random = rng.choose(&[0, 0, 1, 3, 10]);
    let mut places: Vec<Place> = (0..random)
        .filter_map(|_| any_place(rng, &rows, &completed))
        .collect();
    let mut weights = Vec::new();
    for &step in &wrong {
        let refused = places.iter().any(|place| place.refuses(&rows, step));
        weights.push(if refused {
            None
        } else {
            match decide(rng, &rows, &completed, step)? {
                Ok(_) if places.len() == MAX_PLACES => return None,
                Ok(place) => {
                    places.push(place);
                    None
                }
                Err(certificate) => Some(certificate),
            }
        });
    }

    bundle.places = rng.shuffled(&places);
    let mut by_place = 0;
    for (&step, weights) in wrong.iter().zip(weights) {
        bundle.certificates.push(match weights {
            Some(weights) => rewrite(rng, &allowed, &completed, weights),
            None => {
                by_place += 1;
                refusing_place(rng, &bundle.places, &rows, step)
            }
        });
    }
    let counts = Tally {
        rows: rows.len(),
        allowed: allowed.len(),
        by_place,
        by_weights: wrong.len() - by_place,
    };
    bundle.has_allowed_length().then_some(Certified {
        bundle,
        rows,
        counts,
    })
}

/// The words of a log that is small enough for [`certified`]: mostly of few
/// events, and with few rows.
pub fn small_log(rng: &mut Rng) -> (usize, Vec<Vec<u8>>) {
    let n = match rng.below(4) {
        0 => rng.within(1..=MAX_EVENTS),
        _ => rng.within(2..=5),
    };
    let most_rows = rng.choose(&[1, 4, 8, 16, 24, 40]);
    let most_words = rng.within(1..=30);
    let longest = rng.within(1..=20);
    let shape = rng.choose(&Shape::ALL);
    let drawn = match rng.below(4) {
        0 => gaps(rng, n),
        _ => shape.words(rng, n),
    };

    let mut words = Vec::new();
    for mut word in drawn.into_iter().take(most_words) {
        word.truncate(longest);
        words.push(word);
        if log_rows(n, &words).len() > most_rows {
            words.pop();
        }
    }
    (n, words)
}

/// Words that repeat one short word, and then end with some event. Where an event
/// follows fewer and more repetitions, no place refuses it in between.
fn gaps(rng: &mut Rng, n: usize) -> Vec<Vec<u8>> {
    let repeated = random_word(rng, n, 1..=2);
    let count = rng.within(2..=12);
    (0..count)
        .map(|_| {
            let mut word = repeated.repeat(rng.below(10));
            word.push(rng.below(n) as u8);
            word
        })
        .collect()
}

/// A bundle that has to be accepted, for a small log, in either edition.
pub fn small_certified(rng: &mut Rng) -> Certified {
    let is_new = rng.below(2) == 0;
    small_certified_in(rng, is_new)
}

/// A bundle that has to be accepted, for a small log, in the new edition or the old.
pub fn small_certified_in(rng: &mut Rng, is_new: bool) -> Certified {
    loop {
        let (n, words, marks) = if is_new {
            let (n, words, marks) = marked_log(rng);
            (n, words, Some(marks))
        } else {
            let (n, words) = small_log(rng);
            (n, words, None)
        };
        if let Some(certified) = certified_marked(rng, n, words, marks) {
            return certified;
        }
    }
}
