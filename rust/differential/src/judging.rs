//! A further reading of the rules for judging besides the reference, kept as
//! close to their wording as possible and without regard to speed. The tests know
//! from it what a call has to answer, apart from what the reference says.

use crate::fields::Fields;
use crate::files::MAX_BUNDLE_SIZE;
use crate::logs::{table_of, MAX_ROWS, TABLE};
use crate::places::Place;
use crate::run::{refusal, Outcome, Run};
use reference::{log_rows, Row, Tally};

/// Judges a bundle of an allowed length by the definitions. Returns the answer,
/// and what the first 3,584 numbers of the table are afterwards.
pub fn judge_by_definitions(bundle: &[u8]) -> (Outcome<Tally>, Vec<u16>) {
    assert!(!bundle.is_empty() && bundle.len() <= MAX_BUNDLE_SIZE);
    match accepted(&mut Fields::new(bundle)) {
        Ok((counts, table)) => (Ok(counts), table),
        Err(refused) => (Err(refused), vec![0; TABLE]),
    }
}

/// Judges a bundle of an allowed length on both sides, in a table of noise, and
/// checks answer and table by the definitions.
pub fn judge(run: &mut Run, bundle: &[u8]) -> Outcome<Tally> {
    let length = TABLE + run.rng.choose(&[0, 0, 1, 14, 1_000]);
    let noise: Vec<u16> = run.rng.items(length);
    let judged = run.judge(bundle, &noise);
    let (outcome, table) = judge_by_definitions(bundle);
    assert_eq!(judged.outcome, outcome, "{bundle:?}, {run}");
    let (front, rest) = judged.table.split_at(TABLE);
    assert!(front == table, "another table: {bundle:?}, {run}");
    assert!(rest == &noise[TABLE..], "changed beyond the table: {run}");
    outcome
}

/// What the reference says to a sealed file: it is opened, then its bundle judged.
pub fn reference_verdict(file: &[u8]) -> Outcome<Tally> {
    let mut bundle = vec![0; MAX_BUNDLE_SIZE];
    let length = reference::open(file, &mut bundle)?;
    reference::judge(&bundle[..length], &mut [0; TABLE])
}

/// Reads a whole bundle. Gives back the counts and the table.
fn accepted(fields: &mut Fields) -> Outcome<(Tally, Vec<u16>)> {
    let (n, is_new) = fields.event_count()?;
    let log = fields.log(n, is_new, MAX_ROWS)?;
    let rows = log_rows(n, &log.words);
    let places = fields.places(n)?;
    if let Some(lowest) = places.iter().position(|place| !place.fits(&rows)) {
        return refusal(10, lowest);
    }
    let completed: Vec<_> = (0..log.words.len())
        .map(|word| log.completed(n, word))
        .collect();
    let obeys = |place: &Place| completed.iter().flatten().all(|u| place.returns(u));
    if let Some(lowest) = places.iter().position(|place| !obeys(place)) {
        return refusal(20, lowest);
    }

    let mut counts = Tally {
        rows: rows.len(),
        allowed: 0,
        by_place: 0,
        by_weights: 0,
    };
    let mut number = 0;
    for row in &rows {
        for e in 0..n {
            if row.allowed[e] {
                counts.allowed += 1;
                continue;
            }
            match fields.within(1, 0, 1)? {
                0 => {
                    let listed = fields.one_of(1, places.len())?;
                    if places[listed].surplus(&row.counts, e) >= 0 {
                        return refusal(11, number);
                    }
                    counts.by_place += 1;
                }
                _ => {
                    let mut weights = weights(fields, n, rows.len())?;
                    if is_new {
                        weights.pairs = pairs(fields, &completed)?;
                    }
                    if !weights.hold(&rows, &row.counts, e) {
                        return refusal(12, number);
                    }
                    counts.by_weights += 1;
                }
            }
            number += 1;
        }
    }
    fields.finish()?;
    Ok((counts, table_of(n, &log.words)))
}

/// A certificate of kind 1.
struct Weights {
    k: i128,
    terms: Vec<Term>,
    pairs: Vec<Pair>,
}

/// The weight h on a word with the counts u; nothing for a partial word.
struct Pair {
    u: Option<Vec<usize>>,
    h: i128,
}

/// The weight g on the step (u, f), with u by its row.
struct Term {
    u: usize,
    f: usize,
    g: i128,
}

/// Reads a certificate of kind 1 after its kind.
fn weights(fields: &mut Fields, n: usize, rows: usize) -> Outcome<Weights> {
    let k = fields.within(2, 1, 65_535)? as i128;
    let mut terms = Vec::new();
    for _ in 0..fields.within(1, 0, 64)? {
        let u = fields.one_of(2, rows)?;
        let f = fields.one_of(1, n)?;
        let g = fields.field(2)?.0 as i128;
        terms.push(Term { u, f, g });
    }
    let pairs = Vec::new();
    Ok(Weights { k, terms, pairs })
}

/// Reads the second list of a certificate of kind 1.
fn pairs(fields: &mut Fields, completed: &[Option<Vec<usize>>]) -> Outcome<Vec<Pair>> {
    let mut pairs = Vec::new();
    for _ in 0..fields.within(1, 0, 64)? {
        let word = fields.one_of(1, completed.len())?;
        let h = fields.signed()?.into();
        let u = completed[word].clone();
        pairs.push(Pair { u, h });
    }
    Ok(pairs)
}

impl Weights {
    /// Whether the steps are allowed, the words completed, and the inequalities hold
    /// for (v, e).
    fn hold(&self, rows: &[Row], v: &[usize], e: usize) -> bool {
        let sum = |factor: &dyn Fn(&Term) -> i128| -> i128 {
            self.terms.iter().map(|term| term.g * factor(term)).sum()
        };
        let one_if = i128::from;
        let u = |term: &Term, i: usize| rows[term.u].counts[i] as i128;
        let v = |i: usize| v[i] as i128;
        let n = rows[0].counts.len();
        let Some(words) = self.words() else {
            return false;
        };
        let of_words = |i: usize| -> i128 { words.iter().map(|(h, u)| h * u[i] as i128).sum() };

        self.terms.iter().all(|term| rows[term.u].allowed[term.f])
            && sum(&|_| 1) <= self.k
            && (0..n).all(|i| sum(&|term| u(term, i)) + of_words(i) <= self.k * v(i))
            && (0..n).all(|i| {
                let after = sum(&|term| u(term, i) + one_if(term.f == i));
                after + of_words(i) >= self.k * (v(i) + one_if(e == i))
            })
    }

    /// The weight of each pair, and the counts of its word. Nothing when one of them
    /// is partial.
    fn words(&self) -> Option<Vec<(i128, &Vec<usize>)>> {
        let pairs = self.pairs.iter();
        pairs.map(|pair| Some((pair.h, pair.u.as_ref()?))).collect()
    }
}
