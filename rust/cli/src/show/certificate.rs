//! One certificate in full.

use super::log::{Log, Step};
use super::page::{spaced, word, Page};
use super::places::Place;
use super::reading::{Proof, Reading};
use super::weights::{Inequality, Rule, Weights};

impl Reading {
    /// The certificate with this number, if it was read.
    pub fn certificate(&self, number: usize) -> Option<Page> {
        let log = self.log.as_ref()?;
        let certificate = self.certificates.get(number)?;
        let (offset, step) = (certificate.offset, certificate.step);
        let mut page = Page::default();
        page.line(format_args!(
            "certificate {number} at {offset}: {}",
            step_line(step, log)
        ));
        match &certificate.proof {
            Proof::Place { place, .. } => {
                page.append(by_place(*place, self.places.get(*place)?, step, log));
            }
            Proof::Weights(weights) => page.append(by_weights(weights, step, log)),
        }
        Some(page)
    }
}

fn step_line(step: Step, log: &Log) -> String {
    let Step { row, event } = step;
    let (after, counts) = (word(log.first(row)), spaced(log.counts(row)));
    format!("event {event} after {after} (row {row}, counts {counts})")
}

fn by_place(number: usize, place: &Place, step: Step, log: &Log) -> Page {
    let mut page = Page::default();
    page.line(format_args!("kind 0, {}", place.line(number)));
    page.line(format_args!(
        "m + the sum of v(i) * (in(i) - out(i)) - out({}):",
        step.event
    ));
    let changes = place.ins.iter().zip(&place.outs);
    let products: String = changes
        .zip(log.counts(step.row))
        .filter(|&(_, &count)| count > 0)
        .map(|((puts, takes), count)| format!(" + {count} * ({puts} - {takes})"))
        .collect();
    let surplus = place.surplus(step, log);
    let verdict = if surplus < 0 { "refuses" } else { "permits" };
    page.line(format_args!(
        "  {}{products} - {} = {surplus}: the place {verdict} it",
        place.m, place.outs[step.event]
    ));
    page
}

fn by_weights(weights: &Weights, step: Step, log: &Log) -> Page {
    let mut page = Page::default();
    page.line(format_args!("{}", weights.summary()));
    for (number, term) in weights.terms.iter().enumerate() {
        let allowed = if log.allows(term.step) {
            "allowed"
        } else {
            "not allowed"
        };
        let step = step_line(term.step, log);
        page.line(format_args!(
            "  term {number}: {step}: {allowed}, weight {}",
            term.weight
        ));
    }
    for (number, pair) in weights.pairs().iter().enumerate() {
        let taken = &log.words[pair.word];
        let (events, counts) = (word(&taken.events), spaced(taken.counts(log.n())));
        page.line(format_args!(
            "  pair {number}: word {} ({events}, counts {counts}): {}, weight {}",
            pair.word,
            taken.mark(),
            pair.weight
        ));
    }
    for inequality in weights.inequalities(step, log) {
        heading(&mut page, &inequality);
        page.line(format_args!(
            "  {}",
            inequality_line(&inequality, weights.k)
        ));
    }
    page
}

/// What the inequalities of a kind say, before the first of them.
fn heading(page: &mut Page, inequality: &Inequality) {
    let and_pairs = match inequality.of_pairs {
        None => "",
        Some(_) => " + the sum of h * u(i)",
    };
    match inequality.rule {
        Rule::Sum => page.line(format_args!("the sum of g is at most k:")),
        Rule::Before(0) => page.line(format_args!(
            "the sum of g * u(i){and_pairs} is at most k * v(i):"
        )),
        Rule::After(0) => page.line(format_args!(
            "the sum of g * (u(i) + [f = i]){and_pairs} is at least k * (v(i) + [e = i]):"
        )),
        Rule::Before(_) | Rule::After(_) => {}
    }
}

fn inequality_line(inequality: &Inequality, k: i64) -> String {
    let Inequality {
        rule,
        factor,
        bound,
        ..
    } = inequality;
    let sum = inequality.worked_out();
    let verdict = if inequality.holds() { "holds" } else { "fails" };
    match rule {
        Rule::Sum => format!("{sum} <= {bound}: {verdict}"),
        Rule::Before(i) => format!("event {i}: {sum} <= {k} * {factor} = {bound}: {verdict}"),
        Rule::After(i) => format!("event {i}: {sum} >= {k} * {factor} = {bound}: {verdict}"),
    }
}
