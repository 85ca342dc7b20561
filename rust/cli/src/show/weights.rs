//! Weights: certificates of kind 1.

use super::fault::Fault;
use super::fields::{Cursor, Field};
use super::log::{Log, Step};
use hovmekhar::{MAX_PAIRS, MAX_TERMS};

/// A weight on a step.
pub struct Term {
    /// The step (u, f).
    pub step: Step,
    /// The weight g.
    pub weight: i64,
}

/// A weight on a completed word.
pub struct Pair {
    /// The word's number.
    pub word: usize,
    /// The weight h, which may be below 0.
    pub weight: i64,
}

/// What a certificate of kind 1 says. There are at most 64 terms and 64 pairs, all
/// numbers have two bytes and a word has at most 255 events, so sums stay far inside 64
/// bits.
pub struct Weights {
    /// What the weights add up to at most.
    pub k: i64,
    /// The weights.
    pub terms: Vec<Term>,
    /// The weights on completed words, in the new edition.
    pub pairs: Option<Vec<Pair>>,
}

/// Which of the inequalities it is.
#[derive(Clone, Copy, Debug, PartialEq, Eq)]
pub enum Rule {
    /// The sum of g is at most k.
    Sum,
    /// For an event i: the sum of g * u(i) is at most k * v(i). In the new edition the sum
    /// of h * u(i) is added to the left of this and the next.
    Before(usize),
    /// For an event i: the sum of g * (u(i) + [f = i]) is at least k * (v(i) + [e = i]).
    After(usize),
}

/// An inequality with its numbers.
pub struct Inequality {
    /// Which one.
    pub rule: Rule,
    /// The sum over the terms, on its left.
    pub of_terms: i64,
    /// The sum over the pairs, in the new edition, which is added to it.
    pub of_pairs: Option<i64>,
    /// What k is multiplied by on its right.
    pub factor: i64,
    /// What is on its right.
    pub bound: i64,
}

impl Inequality {
    /// What is on its left.
    fn left(&self) -> i64 {
        self.of_terms + self.of_pairs.unwrap_or(0)
    }

    /// What is on its left, as it is worked out: `2`, or `3 - 1 = 2`.
    pub fn worked_out(&self) -> String {
        let (terms, left) = (self.of_terms, self.left());
        match self.of_pairs {
            None => format!("{left}"),
            Some(pairs) if pairs < 0 => format!("{terms} - {} = {left}", -pairs),
            Some(pairs) => format!("{terms} + {pairs} = {left}"),
        }
    }

    /// Whether it holds.
    pub fn holds(&self) -> bool {
        match self.rule {
            Rule::Sum | Rule::Before(_) => self.left() <= self.bound,
            Rule::After(_) => self.left() >= self.bound,
        }
    }

    /// That it does not hold, with its numbers.
    fn failure(&self, k: i64) -> String {
        let Self { factor, bound, .. } = self;
        let sum = self.worked_out();
        let and_pairs = |i| match self.of_pairs {
            None => String::new(),
            Some(_) => format!(" + the sum of h * u({i})"),
        };
        match self.rule {
            Rule::Sum => format!("the sum of g is {sum}, but must be at most k = {k}"),
            Rule::Before(i) => format!(
                "the sum of g * u({i}){} is {sum}, \
                 but must be at most k * v({i}) = {k} * {factor} = {bound}",
                and_pairs(i)
            ),
            Rule::After(i) => format!(
                "the sum of g * (u({i}) + [f = {i}]){} is {sum}, \
                 but must be at least k * (v({i}) + [e = {i}]) = {k} * {factor} = {bound}",
                and_pairs(i)
            ),
        }
    }
}

impl Weights {
    /// Reads what follows the kind of the certificate with this number.
    pub fn read(cursor: &mut Cursor, certificate: usize, log: &Log) -> Result<Self, Fault> {
        let k = cursor.number(Field::K { certificate }, 1..65_536)? as i64;
        let count = cursor.byte(Field::TermCount { certificate }, 0..MAX_TERMS + 1)?;
        let mut terms = Vec::new();
        for term in 0..count {
            let row = cursor.number(Field::TermRow { certificate, term }, 0..log.rows())?;
            let event = cursor.byte(Field::TermEvent { certificate, term }, 0..log.n())?;
            let weight = cursor.any_number(Field::Weight { certificate, term })? as i64;
            let step = Step { row, event };
            terms.push(Term { step, weight });
        }
        let pairs = match log.is_new {
            true => Some(read_pairs(cursor, certificate, log)?),
            false => None,
        };
        Ok(Self { k, terms, pairs })
    }

    /// Whether they hold for a step.
    pub fn hold(&self, step: Step, log: &Log) -> bool {
        self.wrong_term(log).is_none()
            && self.wrong_pair(log).is_none()
            && self.inequalities(step, log).iter().all(Inequality::holds)
    }

    /// The first pair whose word is partial, by its number, and the word's.
    pub fn wrong_pair(&self, log: &Log) -> Option<(usize, usize)> {
        let mut words = self.pairs().iter().map(|pair| pair.word).enumerate();
        words.find(|&(_, word)| !log.words[word].completed)
    }

    /// The pairs; none in the old edition.
    pub fn pairs(&self) -> &[Pair] {
        self.pairs.as_deref().unwrap_or_default()
    }

    /// The first term whose step is not allowed, by its number.
    pub fn wrong_term(&self, log: &Log) -> Option<(usize, Step)> {
        let mut steps = self.terms.iter().map(|term| term.step).enumerate();
        steps.find(|&(_, step)| !log.allows(step))
    }

    /// The first inequality that does not hold for a step.
    pub fn first_failure(&self, step: Step, log: &Log) -> String {
        let inequalities = self.inequalities(step, log);
        let failed = inequalities.iter().find(|inequality| !inequality.holds());
        failed.map_or_else(|| "it holds".into(), |failed| failed.failure(self.k))
    }

    /// All inequalities for a step, in the order of [`Rule`].
    pub fn inequalities(&self, step: Step, log: &Log) -> Vec<Inequality> {
        let inequality = |rule, of_terms, of_pairs, factor| Inequality {
            rule,
            of_terms,
            of_pairs,
            factor,
            bound: self.k * factor,
        };
        let of_words = self.sums_of_words(log);
        let of_pairs = |i: usize| self.pairs.as_ref().map(|_| of_words[i]);
        let v = |i: usize| i64::from(log.counts(step.row)[i]);
        let is_own = |i: usize| i64::from(step.event == i);
        let mut all = vec![inequality(Rule::Sum, self.sum(|_| 1), None, 1)];
        for i in 0..log.n() {
            let before = self.sum(|u| i64::from(log.counts(u.row)[i]));
            all.push(inequality(Rule::Before(i), before, of_pairs(i), v(i)));
        }
        for i in 0..log.n() {
            let after = self.sum(|u| i64::from(log.counts(u.row)[i]) + i64::from(u.event == i));
            let next = v(i) + is_own(i);
            all.push(inequality(Rule::After(i), after, of_pairs(i), next));
        }
        all
    }

    /// For each event i the sum of h * u(i).
    fn sums_of_words(&self, log: &Log) -> Vec<i64> {
        let mut sums = vec![0; log.n()];
        for pair in self.pairs() {
            let counts = log.words[pair.word].counts(log.n());
            for (sum, count) in sums.iter_mut().zip(counts) {
                *sum += pair.weight * count;
            }
        }
        sums
    }

    /// The sum of the weights, each with a factor that depends on its step.
    fn sum(&self, factor: impl Fn(Step) -> i64) -> i64 {
        let products = self
            .terms
            .iter()
            .map(|term| term.weight * factor(term.step));
        products.sum()
    }
}

/// Reads the second list of the certificate with this number.
fn read_pairs(cursor: &mut Cursor, certificate: usize, log: &Log) -> Result<Vec<Pair>, Fault> {
    let count = cursor.byte(Field::PairCount { certificate }, 0..MAX_PAIRS + 1)?;
    let mut pairs = Vec::new();
    for pair in 0..count {
        let word = cursor.byte(Field::PairWord { certificate, pair }, 0..log.words.len())?;
        let weight = cursor.signed(Field::PairWeight { certificate, pair })?;
        pairs.push(Pair { word, weight });
    }
    Ok(pairs)
}
