//! Judging a bundle.
//!
//! A bundle holds a log, places, and a certificate for each wrong continuation,
//! in this order. It is read once, field by field. In the new edition words can be
//! completed: they have to leave each place with its initial tokens.

use crate::blocks::MAX_BUNDLE_SIZE;
use crate::places::Place;
use crate::reader::{Edition, Reader, Word};
use crate::tables::{front, MASK, MAX_EVENTS, MAX_LOG_EVENTS, MAX_ROWS, ROW, TRAFFIC};
use crate::weights::Weights;
use crate::Refusal;

/// The counts of an accepted bundle.
#[derive(Clone, Copy, Debug, PartialEq, Eq)]
pub struct Tally {
    /// The rows of the log.
    pub rows: usize,
    /// The allowed steps of the log.
    pub allowed: usize,
    /// The certificates of kind 0, which list a place.
    pub by_place: usize,
    /// The certificates of kind 1, which list weights.
    pub by_weights: usize,
}

/// Judges a bundle and returns its counts when it is accepted. The first 3,584
/// numbers of `table` then hold the rows of its log, and zeros behind them.
///
/// # Errors
///
/// 4 when the bundle's length is wrong, else 5 with the length needed when
/// `table` is too short; `table` is then as it was.
///
/// Else the first fault in the order of the bundle; the first 3,584 numbers of
/// `table` are then zero. 6, 7 and 13 are refused with the offset of a field, 8
/// and 9 with the offset of a word's length, 10 with the number of a place, after
/// all places are read, 20 likewise, where all of them fit, and 11 and 12 with the
/// number of a certificate, after it is read.
pub fn judge(bundle: &[u8], table: &mut [u16]) -> Result<Tally, Refusal> {
    if bundle.is_empty() || bundle.len() > MAX_BUNDLE_SIZE {
        return Err(Refusal { number: 4, spot: 0 });
    }
    let table = front(table)?;
    table.fill(0);
    let verdict = read(Reader::new(bundle), table);
    if verdict.is_err() {
        table.fill(0);
    }
    verdict
}

fn read(mut reader: Reader, table: &mut [u16]) -> Result<Tally, Refusal> {
    let (edition, n) = reader.event_count()?;
    let log = Log::read(&mut reader, edition, n, table)?;
    let net = Net::read(&mut reader, n, &log)?;

    let mut by_place = 0;
    let mut by_weights = 0;
    for row in 0..log.rows() {
        for event in 0..n.into() {
            let step = Step { row, event };
            if log.allows(step) {
                continue;
            }
            let certificate = by_place + by_weights;
            if reader.byte(0..=1)? == 0 {
                let place = reader.byte(..net.place_count())?;
                if net.permits(place.into(), step) {
                    return Err(Refusal {
                        number: 11,
                        spot: certificate,
                    });
                }
                by_place += 1;
            } else {
                let mut weights = Weights::read(&mut reader, n, &log)?;
                if edition == Edition::New {
                    weights.read_pairs(&mut reader, &log)?;
                }
                if !weights.hold(step, &log) {
                    return Err(Refusal {
                        number: 12,
                        spot: certificate,
                    });
                }
                by_weights += 1;
            }
        }
    }
    reader.finish()?;
    Ok(Tally {
        rows: log.rows(),
        allowed: log.allowed.len(),
        by_place,
        by_weights,
    })
}

/// An event after the counts of a row.
#[derive(Clone, Copy)]
pub struct Step {
    pub row: usize,
    pub event: usize,
}

/// A log, with its rows in a table.
pub struct Log<'t> {
    table: &'t mut [u16],
    /// The allowed steps, each once.
    allowed: Vec<Step>,
    /// For each row but row 0, the step that first led to it.
    origins: Vec<Step>,
    /// Rows are equal only where their prefixes have the same length. So all rows
    /// of a length are chained: here is the last of them, or 0.
    last_of_length: [u8; 256],
    /// For each row the one of the same length before it, or 0.
    before: Vec<u8>,
    /// In the new edition for each word, where it is completed, the row of all its
    /// events.
    pub completed: Vec<Option<usize>>,
}

impl<'t> Log<'t> {
    /// Reads the words of a log over `n` events into a table of zeros.
    fn read(
        reader: &mut Reader,
        edition: Edition,
        n: u8,
        table: &'t mut [u16],
    ) -> Result<Self, Refusal> {
        let mut log = Self {
            table,
            allowed: Vec::with_capacity(MAX_LOG_EVENTS),
            origins: Vec::with_capacity(MAX_ROWS),
            last_of_length: [0; 256],
            before: Vec::with_capacity(MAX_ROWS),
            completed: Vec::new(),
        };
        log.before.push(0);
        reader.words(edition, n, |word| log.take_word(edition, word))?;
        Ok(log)
    }

    fn take_word(&mut self, edition: Edition, word: Word) -> Result<(), Refusal> {
        let Some(row) = self.take(word.events) else {
            return Err(Refusal {
                number: 9,
                spot: word.spot,
            });
        };
        if edition == Edition::New {
            self.completed.push(word.is_completed.then_some(row));
        }
        Ok(())
    }

    /// Takes a word, or a part of it where the rows would pass 256. Returns the row of
    /// all its events.
    fn take(&mut self, word: &[u8]) -> Option<usize> {
        let mut row = 0;
        let mut counts = [0; MAX_EVENTS];
        self.pass(row);
        for (length, &event) in (1..).zip(word) {
            let event = usize::from(event);
            let step = Step { row, event };
            self.allow(step);
            counts[event] += 1;
            row = match self.find(length, &counts) {
                Some(found) => found,
                None if self.rows() == MAX_ROWS => return None,
                None => self.append(length, &counts, step),
            };
            self.pass(row);
        }
        Some(row)
    }

    /// Counts a word in the traffic of a row. There are at most 255 words.
    fn pass(&mut self, row: usize) {
        self.table[row * ROW + TRAFFIC] += 1;
    }

    fn allow(&mut self, step: Step) {
        if !self.allows(step) {
            self.table[step.row * ROW + MASK] |= 1 << step.event;
            self.allowed.push(step);
        }
    }

    /// The row with these counts, which are those of a prefix of this length.
    fn find(&self, length: usize, counts: &[u16; MAX_EVENTS]) -> Option<usize> {
        let mut row = usize::from(self.last_of_length[length]);
        while row != 0 && self.counts(row) != counts {
            row = self.before[row].into();
        }
        (row != 0).then_some(row)
    }

    fn append(&mut self, length: usize, counts: &[u16; MAX_EVENTS], origin: Step) -> usize {
        let row = self.rows();
        self.table[row * ROW..][..MASK].copy_from_slice(counts);
        self.origins.push(origin);
        self.before.push(self.last_of_length[length]);
        // There are at most 256 rows.
        self.last_of_length[length] = row as u8;
        row
    }

    pub fn rows(&self) -> usize {
        self.before.len()
    }

    pub fn counts(&self, row: usize) -> &[u16; MAX_EVENTS] {
        self.table[row * ROW..]
            .first_chunk()
            .expect("a row has twelve counts")
    }

    pub fn allows(&self, step: Step) -> bool {
        self.table[step.row * ROW + MASK] >> step.event & 1 == 1
    }
}

/// All numbers have at most two bytes and a word has at most 255 events, so the
/// tokens stay far inside 32 bits.
impl Place<i32> {
    /// Writes how many tokens there are after each row. Row 0 has the initial
    /// ones; every other row comes one step after a lower one.
    fn count_tokens(&self, log: &Log, tokens: &mut [i32]) {
        tokens[0] = self.initial;
        for (row, origin) in (1..).zip(&log.origins) {
            tokens[row] = tokens[origin.row] + self.change[origin.event];
        }
    }

    /// Whether the place permits every allowed step.
    fn fits(&self, log: &Log, tokens: &[i32]) -> bool {
        let permits = |step: &Step| self.permits(tokens[step.row], step.event);
        log.allowed.iter().all(permits)
    }

    /// Whether each completed word leaves the initial tokens.
    fn obeys(&self, log: &Log, tokens: &[i32]) -> bool {
        let returns = |&row: &usize| tokens[row] == self.initial;
        log.completed.iter().flatten().all(returns)
    }
}

/// The places of a bundle, and how many tokens each has after each row.
struct Net {
    places: Vec<Place<i32>>,
    /// Place by place, and in each row by row.
    tokens: Vec<i32>,
    rows: usize,
}

impl Net {
    /// Reads the places and checks that they fit the log, then that they obey its
    /// completed words.
    fn read(reader: &mut Reader, n: u8, log: &Log) -> Result<Self, Refusal> {
        let places = Place::read_all(reader, n)?;
        let rows = log.rows();
        let mut tokens = vec![0; places.len() * rows];
        for (spot, place) in places.iter().enumerate() {
            let tokens = &mut tokens[spot * rows..][..rows];
            place.count_tokens(log, tokens);
            if !place.fits(log, tokens) {
                return Err(Refusal { number: 10, spot });
            }
        }
        let net = Self {
            places,
            tokens,
            rows,
        };
        let mut of_places = net.places.iter().zip(net.tokens.chunks_exact(rows));
        match of_places.position(|(place, tokens)| !place.obeys(log, tokens)) {
            Some(spot) => Err(Refusal { number: 20, spot }),
            None => Ok(net),
        }
    }

    fn place_count(&self) -> u8 {
        // At most 64.
        self.places.len() as u8
    }

    fn permits(&self, place: usize, step: Step) -> bool {
        self.places[place].permits(self.tokens[place * self.rows + step.row], step.event)
    }
}
