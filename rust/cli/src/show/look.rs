//! A look at a file: the library's verdict on it, and what explains it.

use super::blocks::{self, Broken};
use super::page::{count, Page};
use super::reading::Reading;
use crate::Status;
use hovmekhar::{Refusal, Tally, BLOCK_SIZE, MAX_FILE_SIZE};

/// A file, the library's verdict on it, and what was read of it.
pub struct Look {
    length: usize,
    verdict: Result<Tally, Refusal>,
    /// The blocks that break a rule.
    broken: Vec<Broken>,
    /// What the numbers of the blocks say about their order, for a refusal for one.
    order: Option<String>,
    /// The bundle, where the library opens the file.
    reading: Option<Reading>,
}

impl Look {
    /// Looks at the bytes of a file; of a longer one, one byte more than the longest
    /// is enough.
    #[must_use]
    pub fn at(file: &[u8]) -> Self {
        // A refused bundle is read, too.
        let bundle = hovmekhar::open_vec(file);
        let judged = bundle.as_ref().map_err(|&refusal| refusal);
        let judged = judged.and_then(|bundle| hovmekhar::judge_vec(bundle));
        let verdict = judged.map(|(tally, _)| tally);
        let broken = match blocks::is_length(file.len()) {
            true => blocks::broken(file),
            false => Vec::new(),
        };
        let order = match verdict {
            Err(refusal) if refusal.number == Refusal::BLOCK_NUMBER => blocks::order(file),
            _ => None,
        };
        Self {
            length: file.len(),
            verdict,
            broken,
            order,
            reading: bundle.ok().map(|bundle| Reading::of(&bundle)),
        }
    }

    /// The library's verdict.
    ///
    /// # Errors
    ///
    /// The library's refusal.
    pub fn verdict(&self) -> Result<Tally, Refusal> {
        self.verdict
    }

    /// How `hov show` ends.
    #[must_use]
    pub fn status(&self) -> Status {
        match self.verdict {
            Ok(_) => Status::Good,
            Err(_) => Status::Refused,
        }
    }

    /// Whether the reading here comes to the library's verdict, with its counts or
    /// with its number and spot.
    #[must_use]
    pub fn is_explained(&self) -> bool {
        self.explained() == self.verdict
    }

    /// What the reading here comes to.
    fn explained(&self) -> Result<Tally, Refusal> {
        if !blocks::is_length(self.length) {
            let (number, spot) = (Refusal::FILE_LENGTH, 0);
            return Err(Refusal { number, spot });
        }
        if let Some(lowest) = self.broken.first() {
            return Err(lowest.refusal());
        }
        match &self.reading {
            // Sound blocks that the library does not open: no refusal has number 0.
            None => Err(Refusal { number: 0, spot: 0 }),
            Some(reading) => match &reading.fault {
                None => Ok(reading.tally()),
                Some(fault) => Err(fault.refusal()),
            },
        }
    }

    /// The whole page, for a file of this name.
    #[must_use]
    pub fn page(&self, name: &str) -> String {
        let mut page = self.head(name);
        page.append(self.what_to_do());
        if let Some(reading) = &self.reading {
            page.line(format_args!(""));
            page.append(reading.listing());
        }
        page.text()
    }

    /// The page of one certificate.
    ///
    /// # Errors
    ///
    /// When it was not read: a line that says why.
    pub fn certificate_page(&self, name: &str, number: usize) -> Result<String, String> {
        let reading = self.reading.as_ref();
        let certificate = reading.and_then(|reading| reading.certificate(number));
        let Some(certificate) = certificate else {
            let read = reading.map_or(0, |reading| reading.certificates.len());
            let read = count(read, "certificate");
            let why = match self.verdict {
                Ok(_) => format!("it has {read}"),
                Err(refusal) => format!("{read} read, then {refusal}"),
            };
            return Err(format!("{name}: no certificate {number}: {why}"));
        };
        let mut page = self.head(name);
        page.line(format_args!(""));
        page.append(certificate);
        Ok(page.text())
    }

    /// What the file is, and the verdict.
    fn head(&self, name: &str) -> Page {
        let mut page = Page::default();
        page.line(format_args!("{name}: {}", self.size()));
        match self.verdict {
            Ok(tally) => page.line(format_args!("accepted: {}", counts(tally))),
            Err(refusal) => {
                let Refusal { number, spot } = refusal;
                let what = self.what_is_wrong(refusal);
                page.line(format_args!("refused {number} {spot}: {what}"));
            }
        }
        if !self.is_explained() {
            page.line(format_args!(
                "show can't explain this verdict: its own reading of the file comes to another"
            ));
        }
        page
    }

    fn size(&self) -> String {
        if self.length > MAX_FILE_SIZE {
            return format!("more than {MAX_FILE_SIZE} bytes");
        }
        let mut size = count(self.length, "byte");
        if blocks::is_length(self.length) {
            size += &format!(", {}", count(self.length / BLOCK_SIZE, "block"));
        }
        if let Some(reading) = &self.reading {
            size += &format!("; a bundle of {}", count(reading.length, "byte"));
        }
        size
    }

    /// What is wrong with each block and with their order, and what to do about a
    /// refusal.
    fn what_to_do(&self) -> Page {
        let mut page = Page::default();
        for broken in &self.broken {
            page.line(format_args!("  block {}: {}", broken.block, broken.words()));
        }
        if let Some(order) = &self.order {
            page.line(format_args!("{order}"));
        }
        let kind = self.verdict.err().and_then(|refusal| refusal.kind());
        if let Some(kind) = kind {
            page.line(format_args!("what to do: {}", kind.advice()));
        }
        page
    }

    /// What is wrong, in words of the net where the reading here comes to the same.
    fn what_is_wrong(&self, refusal: Refusal) -> String {
        let reading = self.reading.as_ref().filter(|_| self.is_explained());
        let fault = reading.and_then(|reading| Some(reading.fault.as_ref()?.words(reading)));
        match fault {
            Some(words) => words,
            None if refusal.number == Refusal::FILE_LENGTH => length_words(self.length),
            None => refusal.sentence().to_string(),
        }
    }
}

fn length_words(length: usize) -> String {
    match length {
        0 => "the file is empty".into(),
        _ if length > MAX_FILE_SIZE => {
            format!("the file has more than {MAX_FILE_SIZE} bytes, the most that a file may have")
        }
        _ if length < BLOCK_SIZE => {
            let length = count(length, "byte");
            format!("the file has {length}, less than a block of {BLOCK_SIZE}")
        }
        _ => {
            let blocks = count(length / BLOCK_SIZE, "block");
            let more = count(length % BLOCK_SIZE, "byte");
            format!("the file has {length} bytes: {blocks} of {BLOCK_SIZE}, and {more} more")
        }
    }
}

fn counts(tally: Tally) -> String {
    let Tally {
        rows,
        allowed,
        by_place,
        by_weights,
    } = tally;
    let rows = count(rows, "row");
    let allowed = count(allowed, "allowed step");
    let by_place = count(by_place, "certificate");
    format!("{rows}, {allowed}, {by_place} of kind 0, {by_weights} of kind 1")
}

#[cfg(test)]
mod tests {
    use super::*;

    /// One event, no word and no place; the certificate is missing.
    const BUNDLE: [u8; 3] = [1, 0, 0];

    /// A look with another verdict than the library's, as if the two differed.
    fn disagreeing(verdict: Result<Tally, Refusal>) -> Look {
        let file = hovmekhar::seal_vec(&BUNDLE).expect("it is not too long");
        Look {
            verdict,
            ..Look::at(&file)
        }
    }

    /// The verdict is the library's in any case, and not explained by another.
    #[test]
    fn verdicts_that_differ() {
        let tally = Tally {
            rows: 1,
            allowed: 0,
            by_place: 1,
            by_weights: 0,
        };
        let refusals = [(6, 2), (7, 3), (2, 0), (17, 0), (18, 0), (1, 0), (12, 0)];
        let refusals = refusals.map(|(number, spot)| Err(Refusal { number, spot }));
        for verdict in refusals.into_iter().chain([Ok(tally)]) {
            let look = disagreeing(verdict);
            assert!(!look.is_explained(), "{verdict:?}");
            let page = look.page("name");
            let mut lines = page.lines().skip(1);
            let (line, status) = match verdict {
                Ok(_) => ("accepted: 1 row, no allowed steps".into(), Status::Good),
                Err(Refusal { number, spot }) => {
                    (format!("refused {number} {spot}: "), Status::Refused)
                }
            };
            assert!(
                lines.next().expect("a verdict").starts_with(&line),
                "{page}"
            );
            let next = lines.next().expect("a line");
            assert!(
                next.starts_with("show can't explain this verdict"),
                "{page}"
            );
            assert_eq!(look.status(), status);
        }
    }

    #[test]
    fn verdicts_that_agree() {
        let look = disagreeing(Err(Refusal { number: 6, spot: 3 }));
        assert!(look.is_explained());
        assert!(!look.page("name").contains("can't explain"));
    }
}
