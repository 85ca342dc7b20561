//! Reading a bundle, as far as the library reads it.

use super::fault::Fault;
use super::fields::{Cursor, Field};
use super::log::{Log, Step, Word};
use super::places::Place;
use super::weights::Weights;
use hovmekhar::{Tally, MAX_LOG_EVENTS, MAX_PLACES};

/// A certificate for a wrong continuation.
pub struct Certificate {
    /// The offset of its kind.
    pub offset: usize,
    /// The wrong continuation.
    pub step: Step,
    /// What it says.
    pub proof: Proof,
}

/// What a certificate says.
pub enum Proof {
    /// Kind 0: a place, which has this surplus at the step.
    Place {
        /// The place's number.
        place: usize,
        /// Below 0 the place refuses the step, as it should.
        surplus: i64,
    },
    /// Kind 1.
    Weights(Weights),
}

/// What was read of a bundle, up to the first fault.
pub struct Reading {
    /// The length of the bundle.
    pub length: usize,
    /// How far it was read.
    pub end: usize,
    /// The log, once n is known.
    pub log: Option<Log>,
    /// How many words there should be.
    pub word_count: Option<usize>,
    /// How many places there should be.
    pub place_count: Option<usize>,
    /// The places.
    pub places: Vec<Place>,
    /// How many certificates there should be, once the places fit and obey.
    pub certificate_count: Option<usize>,
    /// The certificates, with the one that does not hold.
    pub certificates: Vec<Certificate>,
    /// What is wrong, if something is.
    pub fault: Option<Fault>,
}

impl Reading {
    /// Reads a bundle.
    pub fn of(bundle: &[u8]) -> Self {
        let mut reading = Self {
            length: bundle.len(),
            end: 0,
            log: None,
            word_count: None,
            place_count: None,
            places: Vec::new(),
            certificate_count: None,
            certificates: Vec::new(),
            fault: None,
        };
        let mut cursor = Cursor::new(bundle);
        reading.fault = reading.read(&mut cursor).err();
        reading.end = cursor.offset();
        reading
    }

    fn read(&mut self, cursor: &mut Cursor) -> Result<(), Fault> {
        let (n, is_new) = cursor.event_count()?;
        self.log = Some(Log::fresh(n, is_new));
        self.read_words(cursor)?;
        self.read_places(cursor, n)?;
        self.check_places()?;
        self.read_certificates(cursor)?;
        cursor.finish()
    }

    fn read_words(&mut self, cursor: &mut Cursor) -> Result<(), Fault> {
        let count = cursor.any_byte(Field::WordCount)?;
        self.word_count = Some(count);
        let Some(log) = &mut self.log else {
            return Ok(());
        };
        for word in 0..count {
            read_word(cursor, word, log)?;
        }
        Ok(())
    }

    fn read_places(&mut self, cursor: &mut Cursor, n: usize) -> Result<(), Fault> {
        let count = cursor.byte(Field::PlaceCount, 0..MAX_PLACES + 1)?;
        self.place_count = Some(count);
        for place in 0..count {
            self.places.push(Place::read(cursor, place, n)?);
        }
        Ok(())
    }

    /// Whether every place permits every allowed step, and then whether every place
    /// obeys the completed words.
    fn check_places(&self) -> Result<(), Fault> {
        let Some(log) = &self.log else {
            return Ok(());
        };
        let mut places = self.places.iter().enumerate();
        let misfit = places.find_map(|(place, numbers)| {
            let (step, surplus) = numbers.misfit(log)?;
            Some(Fault::Misfit {
                place,
                step,
                surplus,
            })
        });
        misfit.map_or(Ok(()), Err)?;
        let mut places = self.places.iter().enumerate();
        let disobeys = places.find_map(|(place, numbers)| {
            let (word, change) = numbers.disobeyed(log)?;
            Some(Fault::Disobeys {
                place,
                word,
                change,
            })
        });
        disobeys.map_or(Ok(()), Err)
    }

    fn read_certificates(&mut self, cursor: &mut Cursor) -> Result<(), Fault> {
        let Some(log) = &self.log else {
            return Ok(());
        };
        let wrong = log.steps(false);
        self.certificate_count = Some(wrong.len());
        for (number, step) in wrong.into_iter().enumerate() {
            let offset = cursor.offset();
            let proof = read_proof(cursor, number, step, log, &self.places)?;
            let failure = proof.failure(number, step, log);
            self.certificates.push(Certificate {
                offset,
                step,
                proof,
            });
            failure.map_or(Ok(()), Err)?;
        }
        Ok(())
    }

    /// The counts of what was read.
    pub fn tally(&self) -> Tally {
        let is_kind_0 =
            |certificate: &&Certificate| matches!(certificate.proof, Proof::Place { .. });
        let by_place = self.certificates.iter().filter(is_kind_0).count();
        Tally {
            rows: self.log.as_ref().map_or(0, Log::rows),
            allowed: self.log.as_ref().map_or(0, |log| log.steps(true).len()),
            by_place,
            by_weights: self.certificates.len() - by_place,
        }
    }
}

fn read_word(cursor: &mut Cursor, word: usize, log: &mut Log) -> Result<(), Fault> {
    let offset = cursor.offset();
    let length = cursor.any_byte(Field::Length { word })?;
    let before = log.summary.events;
    if before + length > MAX_LOG_EVENTS {
        return Err(Fault::Events {
            word,
            offset,
            length,
            before,
        });
    }
    let completed = log.is_new && cursor.byte(Field::Mark { word }, 0..2)? == 1;
    let mut events = Vec::new();
    for position in 0..length {
        let event = cursor.byte(Field::Event { word, position }, 0..log.n())?;
        // n is at most 12.
        events.push(event as u8);
    }
    log.take(Word {
        offset,
        completed,
        events,
    })
}

fn read_proof(
    cursor: &mut Cursor,
    certificate: usize,
    step: Step,
    log: &Log,
    places: &[Place],
) -> Result<Proof, Fault> {
    if cursor.byte(Field::Kind { certificate }, 0..2)? == 1 {
        return Weights::read(cursor, certificate, log).map(Proof::Weights);
    }
    let place = cursor.byte(Field::Listed { certificate }, 0..places.len())?;
    let surplus = places[place].surplus(step, log);
    Ok(Proof::Place { place, surplus })
}

impl Proof {
    /// Whether it holds for a step.
    pub fn holds(&self, step: Step, log: &Log) -> bool {
        match self {
            Self::Place { surplus, .. } => *surplus < 0,
            Self::Weights(weights) => weights.hold(step, log),
        }
    }

    fn failure(&self, certificate: usize, step: Step, log: &Log) -> Option<Fault> {
        if self.holds(step, log) {
            return None;
        }
        Some(match self {
            Self::Place { .. } => Fault::Permits { certificate },
            Self::Weights(_) => Fault::Weights { certificate },
        })
    }
}
