//! A further reading of the rule for pruning besides the reference, kept as close to its
//! wording as possible; and bundles with idle places.

use crate::bundles::{Bundle, Certificate, Pair, Place, Term, MAX_PLACES};
use crate::fields::{Fields, Log};
use crate::nets::Certified;
use crate::rewriting::{rewrite, rewritten, Rewrite};
use crate::rng::Rng;
use crate::run::{Outcome, Run};

/// A bundle of four places, of which no certificate names the first: accepted with the
/// counts 6 5 6 1. Its log has the words 0 0 0 1 and 0 1.
pub const WITH_IDLE: [u8; 77] = [
    2, 2, 4, 0, 0, 0, 1, 2, 0, 1, //
    // Nothing follows event 1. This permits the log, but is not named.
    4, 1, 0, 1, 0, 0, 0, 1, 0, 1, 0, //
    // Event 1 takes two tokens, and event 0 adds one to the first.
    1, 0, 2, 0, 0, 0, 1, 0, 2, 0, //
    // Event 0 occurs at most three times, event 1 once.
    3, 0, 0, 0, 0, 0, 1, 0, 0, 0, //
    1, 0, 0, 0, 0, 0, 0, 0, 1, 0, //
    // Event 1 after 0 0 is of kind 1.
    0, 1, 1, 2, 0, 2, 1, 0, 1, 1, 0, 3, 0, 1, 1, 0, //
    0, 2, 0, 2, 0, 3, 0, 1, 0, 1,
];

/// What is left of it: three places.
pub const WITHOUT_IDLE: [u8; 67] = [
    2, 2, 4, 0, 0, 0, 1, 2, 0, 1, //
    3, 1, 0, 2, 0, 0, 0, 1, 0, 2, 0, //
    3, 0, 0, 0, 0, 0, 1, 0, 0, 0, //
    1, 0, 0, 0, 0, 0, 0, 0, 1, 0, //
    0, 0, 1, 2, 0, 2, 1, 0, 1, 1, 0, 3, 0, 1, 1, 0, //
    0, 1, 0, 1, 0, 2, 0, 0, 0, 0,
];

/// A word that [`WITH_IDLE`] stops and [`WITHOUT_IDLE`] permits. It leaves the log with
/// its third event.
pub const LEAVES_EARLIER: [u8; 4] = [0, 0, 1, 0];

/// Prunes a bundle of an allowed length on both sides, and checks all by the definitions.
pub fn prune(run: &mut Run, bundle: &[u8]) -> Outcome<Vec<u8>> {
    rewrite(run, Rewrite::Prune, bundle)
}

/// Prunes an accepted bundle on both sides, and returns the result.
pub fn prune_accepted(run: &mut Run, bundle: &[u8]) -> Vec<u8> {
    rewritten(run, Rewrite::Prune, bundle)
}

/// Prunes a bundle of an allowed length by the definitions: returns the result, and what
/// the first 3,584 numbers of the table are afterwards.
pub fn prune_by_definitions(bundle: &[u8]) -> (Outcome<Vec<u8>>, Vec<u16>) {
    Rewrite::Prune.by_definitions(bundle)
}

/// A bundle without the places that no certificate of kind 0 names.
pub fn pruned(bundle: &Bundle) -> Bundle {
    let named: Vec<bool> = (0..bundle.places.len())
        .map(|place| is_named(bundle, place))
        .collect();
    let places = bundle.places.iter().zip(&named);
    let renumbered = |certificate: &Certificate| match certificate {
        Certificate::Place(place) => {
            let before = &named[..usize::from(*place)];
            Certificate::Place(before.iter().filter(|&&named| named).count() as u8)
        }
        weights => weights.clone(),
    };
    Bundle {
        n: bundle.n,
        words: bundle.words.clone(),
        marks: bundle.marks.clone(),
        places: places
            .filter(|(_, &named)| named)
            .map(|(place, _)| place.clone())
            .collect(),
        certificates: bundle.certificates.iter().map(renumbered).collect(),
    }
}

/// Whether some certificate of kind 0 names a place.
pub fn is_named(bundle: &Bundle, place: usize) -> bool {
    let names = |certificate: &Certificate| *certificate == Certificate::Place(place as u8);
    bundle.certificates.iter().any(names)
}

/// How many places no certificate names.
pub fn idle_count(bundle: &Bundle) -> usize {
    let places = 0..bundle.places.len();
    places.filter(|&place| !is_named(bundle, place)).count()
}

/// What an accepted bundle says.
pub fn contents(bytes: &[u8]) -> Bundle {
    let mut fields = Fields::new(bytes);
    read(&mut fields).expect("an accepted bundle")
}

fn read(fields: &mut Fields) -> Outcome<Bundle> {
    let (n, is_new) = fields.event_count()?;
    let Log { words, marks } = fields.log(n, is_new, usize::MAX)?;
    let two_bytes = |numbers: &[i128]| numbers.iter().map(|&number| number as u16).collect();
    let places = fields.places(n)?;
    let places = places.iter().map(|place| Place {
        m: place.m as u16,
        ins: two_bytes(&place.ins),
        outs: two_bytes(&place.outs),
    });
    let mut bundle = Bundle {
        n,
        words,
        marks,
        places: places.collect(),
        certificates: Vec::new(),
    };
    // There are as many certificates as there are bytes for.
    while fields.finish().is_err() {
        bundle.certificates.push(certificate(fields, is_new)?);
    }
    Ok(bundle)
}

fn certificate(fields: &mut Fields, is_new: bool) -> Outcome<Certificate> {
    if fields.field(1)?.0 == 0 {
        return Ok(Certificate::Place(fields.field(1)?.0 as u8));
    }
    let k = fields.field(2)?.0 as u16;
    let mut terms = Vec::new();
    for _ in 0..fields.field(1)?.0 {
        terms.push(Term {
            row: fields.field(2)?.0 as u16,
            event: fields.field(1)?.0 as u8,
            weight: fields.field(2)?.0 as u16,
        });
    }
    let mut pairs = Vec::new();
    let pair_count = if is_new { fields.field(1)?.0 } else { 0 };
    for _ in 0..pair_count {
        pairs.push(Pair {
            word: fields.field(1)?.0 as u8,
            weight: fields.signed()? as i16,
        });
    }
    Ok(Certificate::Weights { k, terms, pairs })
}

/// Where places are added that no certificate names.
#[derive(Clone, Copy, Debug, PartialEq, Eq)]
pub enum Idle {
    /// Before all others.
    Front,
    /// Between two others, or where there is one only, behind it.
    Middle,
    /// Behind all others.
    End,
    /// Anywhere, each by itself.
    Anywhere,
    /// Copies of others where there are any, anywhere.
    Copies,
}

impl Idle {
    /// All of them.
    pub const ALL: [Idle; 5] = [
        Idle::Front,
        Idle::Middle,
        Idle::End,
        Idle::Anywhere,
        Idle::Copies,
    ];

    /// Adds so many places to a bundle that is accepted, or up to 64. It is accepted with
    /// the same counts.
    pub fn add(self, rng: &mut Rng, certified: &mut Certified, count: usize) {
        let room = MAX_PLACES - certified.bundle.places.len();
        for _ in 0..count.min(room) {
            let place = self.place(rng, certified);
            let places = certified.bundle.places.len();
            let at = match self {
                Idle::Front => 0,
                Idle::Middle => places.div_ceil(2),
                Idle::End => places,
                Idle::Anywhere | Idle::Copies => rng.within(0..=places),
            };
            insert(&mut certified.bundle, at, place);
        }
    }

    fn place(self, rng: &mut Rng, certified: &Certified) -> Place {
        let places = &certified.bundle.places;
        loop {
            let place = match self {
                Idle::Copies if !places.is_empty() => Some(places[rng.below(places.len())].clone()),
                _ => certified.another_place(rng),
            };
            if let Some(place) = place {
                return place;
            }
        }
    }
}

/// Puts a place before the one with this number; the certificates name the same places.
pub fn insert(bundle: &mut Bundle, at: usize, place: Place) {
    bundle.places.insert(at, place);
    for certificate in &mut bundle.certificates {
        if let Certificate::Place(named) = certificate {
            *named += u8::from(usize::from(*named) >= at);
        }
    }
}

/// Has each certificate of kind 0 name the lowest place that refuses its step, so that few
/// places are named.
pub fn name_lowest(certified: &mut Certified) {
    let steps = certified.wrong_continuations();
    let Bundle {
        places,
        certificates,
        ..
    } = &mut certified.bundle;
    for (certificate, step) in certificates.iter_mut().zip(steps) {
        if let Certificate::Place(named) = certificate {
            let refuses = |place: &Place| place.refuses(&certified.rows, step);
            let lowest = places.iter().position(refuses);
            *named = lowest.expect("a place that refuses") as u8;
        }
    }
}
