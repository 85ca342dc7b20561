//! Everything that was read of a bundle.

use super::log::{Log, Step};
use super::page::{count, count_of, spaced, word, Page};
use super::places::Place;
use super::reading::{Proof, Reading};
use super::weights::Weights;

impl Reading {
    /// All of it, and where the reading ended.
    pub fn listing(&self) -> Page {
        let mut page = Page::default();
        if let Some(log) = &self.log {
            page.append(self.words_and_rows(log));
            page.append(self.places());
            page.append(self.certificates(log));
        }
        if let Some(fault) = &self.fault {
            page.line(format_args!("{}", fault.foot(self)));
        }
        page
    }

    fn words_and_rows(&self, log: &Log) -> Page {
        let mut page = Page::default();
        let edition = if log.is_new { "; new edition" } else { "" };
        match log.n() {
            1 => page.line(format_args!("n = 1: event 0{edition}")),
            n => page.line(format_args!("n = {n}: events 0 to {}{edition}", n - 1)),
        }
        let Some(all) = self.word_count else {
            return page;
        };
        let words = count_of(log.words.len(), all, "word");
        page.line(format_args!(
            "{words}, {}",
            count(log.summary.events, "event")
        ));
        for (number, taken) in log.words.iter().enumerate() {
            let events = word(&taken.events);
            let offset = taken.offset;
            if log.is_new {
                let mark = taken.mark();
                page.line(format_args!(
                    "  word {number} at {offset}: {events}; {mark}"
                ));
            } else {
                page.line(format_args!("  word {number} at {offset}: {events}"));
            }
        }
        let so_far = if log.words.len() < all { " so far" } else { "" };
        page.line(format_args!("{}{so_far}", count(log.rows(), "row")));
        for row in 0..log.rows() {
            page.line(format_args!("  {}", row_line(log, row)));
        }
        page
    }

    fn places(&self) -> Page {
        let mut page = Page::default();
        let Some(all) = self.place_count else {
            return page;
        };
        let places = count_of(self.places.len(), all, "place");
        page.line(format_args!("{places}"));
        for (number, place) in self.places.iter().enumerate() {
            page.line(format_args!("  {}", place.line(number)));
        }
        page
    }

    fn certificates(&self, log: &Log) -> Page {
        let mut page = Page::default();
        let Some(all) = self.certificate_count else {
            return page;
        };
        let certificates = count_of(self.certificates.len(), all, "certificate");
        page.line(format_args!("{certificates}"));
        for (number, certificate) in self.certificates.iter().enumerate() {
            let (offset, step) = (certificate.offset, self.step(certificate.step));
            let fails = match certificate.proof.holds(certificate.step, log) {
                true => "",
                false => ": fails",
            };
            page.line(format_args!(
                "  certificate {number} at {offset}: {step}: {}{fails}",
                certificate.proof.summary()
            ));
        }
        page
    }
}

fn row_line(log: &Log, row: usize) -> String {
    let counts = spaced(log.counts(row));
    let after = word(log.first(row));
    let mut allowed = spaced((0..log.n()).filter(|&event| log.allows(Step { row, event })));
    if allowed.is_empty() {
        allowed = "none".into();
    }
    let traffic = log.traffic(row);
    format!("row {row}: counts {counts}, after {after}; traffic {traffic}; allowed {allowed}")
}

impl Place {
    /// The place in a line, with its number.
    pub fn line(&self, number: usize) -> String {
        let (offset, m) = (self.offset, self.m);
        let (ins, outs) = (spaced(&self.ins), spaced(&self.outs));
        format!("place {number} at {offset}: m {m}, in {ins}, out {outs}")
    }
}

impl Proof {
    fn summary(&self) -> String {
        match self {
            Self::Place { place, surplus } => {
                format!("kind 0, place {place}, surplus {surplus}")
            }
            Self::Weights(weights) => weights.summary(),
        }
    }
}

impl Weights {
    /// What it has, in a line.
    pub fn summary(&self) -> String {
        let terms = count(self.terms.len(), "term");
        let mut line = format!("kind 1, k {}, {terms}", self.k);
        if let Some(pairs) = &self.pairs {
            line += &format!(", {}", count(pairs.len(), "pair"));
        }
        line
    }
}
