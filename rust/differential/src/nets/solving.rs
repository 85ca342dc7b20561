//! Places and weights by the simplex method.
//!
//! A place that fits and obeys has a surplus of 0 or more at each allowed step, and the
//! sum of u(i) × (in(i) − out(i)) is 0 for each completed word.

use super::{steps, term, Completed, Step};
use crate::bundles::{Certificate, Pair, Place, Term, MAX_PAIRS, MAX_TERMS};
use crate::places;
use crate::rng::Rng;
use crate::simplex::{solve, Solution};
use reference::Row;
use std::iter;

/// The numbers by which m, each in(i) and each out(i) count towards the surplus
/// at a step, with the sign changed.
fn column_numbers(rows: &[Row], step: Step) -> Vec<i128> {
    let counts = || rows[step.row].counts.iter().map(|&count| count as i128);
    let next_counts = counts()
        .enumerate()
        .map(|(i, count)| count + i128::from(i == step.event));
    iter::once(-1)
        .chain(counts().map(|count| -count))
        .chain(next_counts)
        .collect()
}

/// The numbers by which m, each in(i) and each out(i) count towards what a word with
/// these counts leaves, with the sign changed.
fn word_numbers(counts: &[usize]) -> Vec<i128> {
    let counts = || counts.iter().map(|&count| count as i128);
    iter::once(0)
        .chain(counts().map(|count| -count))
        .chain(counts())
        .collect()
}

/// What a place that fits and obeys has at most 0 of: the numbers of each allowed step,
/// then for each completed word its numbers, and their negatives.
fn constraints(rows: &[Row], completed: &[Completed]) -> Vec<Vec<i128>> {
    let of_steps = steps(rows, true)
        .into_iter()
        .map(|step| column_numbers(rows, step));
    let of_words = completed.iter().flat_map(|word| {
        let numbers = word_numbers(&word.counts);
        let negatives = numbers.iter().map(|number| -number).collect();
        [numbers, negatives]
    });
    of_steps.chain(of_words).collect()
}

/// A place that fits, obeys and refuses a step, in whole numbers of any size, or
/// multiples of the constraints that show that there is none. Nothing when numbers get
/// too large on the way.
fn solve_step(
    rng: &mut Rng,
    rows: &[Row],
    completed: &[Completed],
    step: Step,
) -> Option<Solution> {
    let objective = column_numbers(rows, step);
    solve(rng, &constraints(rows, completed), &objective)
}

/// A place that fits, obeys and refuses a step, or weights that show that there is none.
/// Nothing when numbers are too large for a bundle.
pub fn decide(
    rng: &mut Rng,
    rows: &[Row],
    completed: &[Completed],
    step: Step,
) -> Option<Result<Place, Certificate>> {
    match solve_step(rng, rows, completed, step)? {
        Solution::Ray(ray) => Some(Ok(place(&ray)?)),
        Solution::Multipliers { scale, multiples } => {
            let allowed = steps(rows, true);
            Some(Err(weights(&allowed, completed, scale, &multiples)?))
        }
    }
}

/// The place with these numbers, where two bytes are enough for each.
fn place(numbers: &[i128]) -> Option<Place> {
    let numbers = two_bytes(numbers)?;
    let n = numbers.len() / 2;
    Some(Place {
        m: numbers[0],
        ins: numbers[1..=n].to_vec(),
        outs: numbers[1 + n..].to_vec(),
    })
}

/// A random place that fits and obeys, or nothing when its numbers would be too large.
pub fn obeying_place(rng: &mut Rng, rows: &[Row], completed: &[Completed]) -> Option<Place> {
    let n = rows[0].counts.len();
    if rng.below(2) == 0 {
        // Each event puts back what it takes.
        let largest = rng.choose(&[1, 3, 300, 65_535]);
        let numbers: Vec<u16> = (0..n).map(|_| rng.within(0..=largest) as u16).collect();
        let mut place = Place {
            m: 0,
            ins: numbers.clone(),
            outs: numbers,
        };
        return place.make_fit(rows).then_some(place);
    }
    let objective: Vec<i128> = (0..1 + 2 * n).map(|_| rng.below(9) as i128 - 4).collect();
    match solve(rng, &constraints(rows, completed), &objective)? {
        Solution::Ray(ray) => place(&ray),
        Solution::Multipliers { .. } => None,
    }
}

/// A net that permits all words of a log, obeys the completed ones and refuses each wrong
/// continuation that any such net refuses, in whole numbers of any size. Nothing when
/// numbers get too large on the way.
pub fn strictest_net(
    rng: &mut Rng,
    rows: &[Row],
    completed: &[Completed],
) -> Option<Vec<places::Place>> {
    let n = rows[0].counts.len();
    let mut net = Vec::new();
    for step in steps(rows, false) {
        if let Solution::Ray(ray) = solve_step(rng, rows, completed, step)? {
            net.push(places::Place {
                m: ray[0],
                ins: ray[1..=n].to_vec(),
                outs: ray[1 + n..].to_vec(),
            });
        }
    }
    Some(net)
}

/// Weights for which all inequalities hold but one: the first is that of the sum
/// of the weights, then come those with u(i), then those with u(i) + \[f = i\].
/// The step is one that a fitting place refuses, so they cannot all hold. Nothing
/// when there are no such weights, or numbers are too large for a bundle.
pub fn weights_but_for(
    rng: &mut Rng,
    rows: &[Row],
    completed: &[Completed],
    step: Step,
    inequality: usize,
) -> Option<Certificate> {
    let without = |mut numbers: Vec<i128>| {
        numbers.remove(inequality);
        numbers
    };
    let constraints: Vec<Vec<i128>> = constraints(rows, completed)
        .into_iter()
        .map(without)
        .collect();
    match solve(rng, &constraints, &without(column_numbers(rows, step)))? {
        Solution::Ray(_) => None,
        Solution::Multipliers { scale, multiples } => {
            weights(&steps(rows, true), completed, scale, &multiples)
        }
    }
}

/// A certificate with the weights that are not 0.
fn weights(
    allowed: &[Step],
    completed: &[Completed],
    k: i128,
    multiples: &[i128],
) -> Option<Certificate> {
    let k = u16::try_from(k).ok()?;
    let (of_steps, of_words) = multiples.split_at(allowed.len());
    let terms: Vec<Term> = allowed
        .iter()
        .zip(two_bytes(of_steps)?)
        .filter(|(_, weight)| *weight > 0)
        .map(|(&step, weight)| term(step, weight))
        .collect();
    let mut pairs = Vec::new();
    for (word, multiples) in completed.iter().zip(of_words.chunks_exact(2)) {
        let weight = i16::try_from(multiples[0] - multiples[1]).ok()?;
        if weight != 0 {
            pairs.push(pair(word, weight));
        }
    }
    let few = terms.len() <= MAX_TERMS && pairs.len() <= MAX_PAIRS;
    few.then_some(Certificate::Weights { k, terms, pairs })
}

fn pair(word: &Completed, weight: i16) -> Pair {
    Pair {
        word: word.word,
        weight,
    }
}

fn two_bytes(numbers: &[i128]) -> Option<Vec<u16>> {
    let numbers = numbers.iter().map(|&number| u16::try_from(number).ok());
    numbers.collect()
}

/// Writes the weights of a certificate in another way that says the same: larger
/// by a factor, some of them as several terms or pairs, and with terms and pairs of
/// weight 0. A certificate of kind 0 stays.
pub fn rewrite(
    rng: &mut Rng,
    allowed: &[Step],
    completed: &[Completed],
    certificate: Certificate,
) -> Certificate {
    let Certificate::Weights { k, terms, pairs } = certificate else {
        return certificate;
    };
    // No weight of a term is above k.
    let of_pairs = pairs
        .iter()
        .map(|pair| 32_767 / usize::from(pair.weight.unsigned_abs()));
    let largest = of_pairs.fold(65_535 / usize::from(k), usize::min).max(1);
    let any = rng.within(1..=largest);
    let factor = rng.choose(&[1, 1, 1, largest, any]) as u16;
    let mut terms: Vec<Term> = terms
        .iter()
        .map(|&term| Term {
            weight: term.weight * factor,
            ..term
        })
        .collect();

    let more = rng.choose(&[0, 0, 1, 3, MAX_TERMS]);
    for _ in 0..more.min(MAX_TERMS - terms.len()) {
        let split = rng.below(terms.len());
        let moved = rng.within(0..=terms[split].weight.into()) as u16;
        let added = match rng.below(3) {
            0 => term(rng.choose(allowed), 0),
            _ => {
                terms[split].weight -= moved;
                Term {
                    weight: moved,
                    ..terms[split]
                }
            }
        };
        terms.push(added);
    }
    let mut larger: Vec<Pair> = pairs
        .iter()
        .map(|&pair| Pair {
            weight: pair.weight * factor as i16,
            ..pair
        })
        .collect();
    if !completed.is_empty() {
        let more = rng.choose(&[0, 0, 1, 3, MAX_PAIRS]);
        let wanted = (larger.len() + more).min(MAX_PAIRS);
        add_pairs(rng, completed, &mut larger, wanted);
        larger = rng.shuffled(&larger);
    }
    Certificate::Weights {
        k: k * factor,
        terms: rng.shuffled(&terms),
        pairs: larger,
    }
}

/// Adds pairs that change no sum until there are so many: of weight 0, of words without events, and of weights
/// that cancel out, on one word or on two with the same counts.
pub fn add_pairs(rng: &mut Rng, completed: &[Completed], pairs: &mut Vec<Pair>, wanted: usize) {
    while pairs.len() < wanted {
        let word = &completed[rng.below(completed.len())];
        let any = rng.number() as i16;
        let weight = rng.choose(&[0, 1, -1, 32_767, -32_768, any]);
        // The negative of the least number has no two bytes.
        let opposite: Vec<i16> = match weight.checked_neg() {
            _ if word.counts.iter().all(|&count| count == 0) => Vec::new(),
            Some(0) => Vec::new(),
            Some(opposite) => vec![opposite],
            None => vec![32_767, 1],
        };
        let room = wanted - pairs.len();
        if opposite.len() >= room {
            pairs.push(pair(word, 0));
            continue;
        }
        pairs.push(pair(word, weight));
        let same: Vec<&Completed> = completed
            .iter()
            .filter(|other| other.counts == word.counts)
            .collect();
        let opposite = opposite.iter();
        pairs.extend(opposite.map(|&weight| pair(rng.choose(&same), weight)));
    }
}
