//! Bundles that have to be refused, each with one fault, and bundles with several
//! changes.

mod completed;

use crate::bundles::{Bundle, Certificate, Field, Layout, MAX_PAIRS, MAX_PLACES, MAX_TERMS, NEW};
use crate::logs::MAX_EVENTS;
use crate::nets::{term, weights_but_for, Certified, Step};
use crate::rng::Rng;
use reference::Refusal;
use std::ops::Range;

/// A way for a bundle to break a rule, with everything before it as it should be.
#[derive(Clone, Copy, Debug, PartialEq, Eq)]
pub enum BundleFault {
    /// The end is missing: refusal 6.
    Cut,
    /// A value is out of range, or names something that is not there: refusal 7.
    Value(Field),
    /// A place has fewer initial tokens than it needs to fit: refusal 10.
    InitialTooFew,
    /// An event takes more tokens out of a place than are there: refusal 10.
    OutTooMany,
    /// Two places do not fit: refusal 10 for the lower one.
    TwoPlaces,
    /// A certificate lists a place that permits the step: refusal 11.
    ListedPermits,
    /// A place has so many initial tokens that it permits the step of a
    /// certificate that lists it: refusal 11.
    InitialTooMany,
    /// A weight is less by one: refusal 12.
    WeightLess,
    /// A weight is more by one: refusal 12.
    WeightMore,
    /// A k is less by one: refusal 12.
    KLess,
    /// A k is more by one: refusal 12.
    KMore,
    /// A term is missing: refusal 12.
    TermDropped,
    /// A term is there twice: refusal 12.
    TermRepeated,
    /// A further term of weight 0 has a step that is not allowed: refusal 12.
    StepNotAllowed,
    /// A certificate of kind 1 is for a step that a place refuses, and only the
    /// sum of the weights is too large: refusal 12.
    SumTooLarge,
    /// The same, and only one sum of g × u(i) is too large: refusal 12.
    BeforeTooLarge,
    /// The same, and only one sum of g × (u(i) + \[f = i\]) is too small:
    /// refusal 12.
    AfterTooSmall,
    /// A place does not obey a completed word: refusal 20.
    Disobeys,
    /// Two places do not obey: refusal 20 for the lower one.
    TwoDisobey,
    /// A place does not obey, and another does not fit: refusal 10 for the latter.
    DisobeysAndMisfit,
    /// The weight of a pair is another: refusal 12.
    PairWeight,
    /// A pair is missing: refusal 12.
    PairDropped,
    /// A pair is there twice: refusal 12.
    PairRepeated,
    /// A further pair, of weight 0 too, has a partial word: refusal 12.
    PairPartial,
    /// Bytes follow: refusal 13.
    BytesFollow,
}

impl BundleFault {
    /// All of them.
    pub const ALL: [BundleFault; 36] = [
        BundleFault::Cut,
        BundleFault::Value(Field::EventCount),
        BundleFault::Value(Field::Mark),
        BundleFault::Value(Field::Event),
        BundleFault::Value(Field::PlaceCount),
        BundleFault::Value(Field::Kind),
        BundleFault::Value(Field::Listed),
        BundleFault::Value(Field::K),
        BundleFault::Value(Field::TermCount),
        BundleFault::Value(Field::TermRow),
        BundleFault::Value(Field::TermEvent),
        BundleFault::Value(Field::PairCount),
        BundleFault::Value(Field::PairWord),
        BundleFault::InitialTooFew,
        BundleFault::OutTooMany,
        BundleFault::TwoPlaces,
        BundleFault::ListedPermits,
        BundleFault::InitialTooMany,
        BundleFault::WeightLess,
        BundleFault::WeightMore,
        BundleFault::KLess,
        BundleFault::KMore,
        BundleFault::TermDropped,
        BundleFault::TermRepeated,
        BundleFault::StepNotAllowed,
        BundleFault::SumTooLarge,
        BundleFault::BeforeTooLarge,
        BundleFault::AfterTooSmall,
        BundleFault::Disobeys,
        BundleFault::TwoDisobey,
        BundleFault::DisobeysAndMisfit,
        BundleFault::PairWeight,
        BundleFault::PairDropped,
        BundleFault::PairRepeated,
        BundleFault::PairPartial,
        BundleFault::BytesFollow,
    ];

    /// The bytes of a bundle with this fault, and how it has to be refused.
    /// Nothing when this bundle cannot have the fault, or not where a random
    /// choice put it.
    pub fn bytes(self, rng: &mut Rng, certified: &Certified) -> Option<(Vec<u8>, Refusal)> {
        let mut changed = certified.clone();
        let refusal = match self {
            BundleFault::Cut => {
                let layout = certified.bundle.layout();
                let length = rng.within(1..=layout.bytes.len() - 1);
                let refusal = refusal_of_cut(&layout, length);
                return Some((layout.bytes[..length].to_vec(), refusal));
            }
            BundleFault::BytesFollow => {
                let mut bytes = certified.bundle.bytes();
                let spot = bytes.len();
                let more = rng.choose(&[1, 1, 2, 100]);
                bytes.extend(rng.bytes(more));
                return Some((bytes, Refusal { number: 13, spot }));
            }
            BundleFault::Value(field) => return with_wrong_value(rng, certified, field),
            BundleFault::InitialTooFew => {
                let spot = any_below(rng, certified.bundle.places.len())?;
                take_initial_tokens(rng, &mut changed, spot)?;
                Refusal { number: 10, spot }
            }
            BundleFault::OutTooMany => {
                let spot = any_below(rng, certified.bundle.places.len())?;
                take_more_out(rng, &mut changed, spot)?;
                Refusal { number: 10, spot }
            }
            BundleFault::TwoPlaces => {
                let places = certified.bundle.places.len();
                if places < 2 {
                    return None;
                }
                let (low, high) = rng.two_below(places);
                take_more_out(rng, &mut changed, low)?;
                take_more_out(rng, &mut changed, high)?;
                Refusal {
                    number: 10,
                    spot: low,
                }
            }
            BundleFault::ListedPermits => list_permitting_place(rng, &mut changed)?,
            BundleFault::InitialTooMany => add_initial_tokens(rng, &mut changed)?,
            BundleFault::WeightLess
            | BundleFault::WeightMore
            | BundleFault::KLess
            | BundleFault::KMore
            | BundleFault::TermDropped
            | BundleFault::TermRepeated
            | BundleFault::StepNotAllowed => {
                let spot = self.change_weights(rng, &mut changed)?;
                Refusal { number: 12, spot }
            }
            BundleFault::SumTooLarge | BundleFault::BeforeTooLarge | BundleFault::AfterTooSmall => {
                let spot = self.break_one_inequality(rng, &mut changed)?;
                Refusal { number: 12, spot }
            }
            BundleFault::Disobeys | BundleFault::TwoDisobey | BundleFault::DisobeysAndMisfit => {
                completed::break_obedience(self, rng, &mut changed)?
            }
            BundleFault::PairWeight
            | BundleFault::PairDropped
            | BundleFault::PairRepeated
            | BundleFault::PairPartial => {
                let spot = completed::change_pairs(self, rng, &mut changed)?;
                Refusal { number: 12, spot }
            }
        };
        Some((changed.bundle.bytes(), refusal))
    }

    /// Changes a certificate of kind 1, and returns its number. By the inequalities
    /// for the event of its step, weights that hold add up to k exactly. So no
    /// single number can be another.
    fn change_weights(self, rng: &mut Rng, changed: &mut Certified) -> Option<usize> {
        let wrong = changed.wrong_continuations();
        let number = any_of_kind_1(rng, changed)?;
        let Certificate::Weights { k, terms, .. } = &mut changed.bundle.certificates[number] else {
            return None;
        };
        let any = any_below(rng, terms.len())?;
        let weight = &mut terms[any].weight;
        match self {
            BundleFault::WeightLess => *weight = weight.checked_sub(1)?,
            BundleFault::WeightMore => *weight = weight.checked_add(1)?,
            // 0 would be out of range.
            BundleFault::KLess if *k > 1 => *k -= 1,
            BundleFault::KMore => *k = k.checked_add(1)?,
            BundleFault::TermDropped if *weight > 0 => {
                terms.remove(any);
            }
            BundleFault::TermRepeated if *weight > 0 && terms.len() < MAX_TERMS => {
                terms.push(terms[any]);
            }
            BundleFault::StepNotAllowed if terms.len() < MAX_TERMS => {
                // Often the very step that the certificate is for.
                let other = rng.choose(&wrong);
                let step = rng.choose(&[wrong[number], other]);
                let position = rng.within(0..=terms.len());
                terms.insert(position, term(step, 0));
            }
            _ => return None,
        }
        Some(number)
    }

    /// Replaces a certificate of kind 0 by one of kind 1 for which all
    /// inequalities hold but one, and returns its number.
    fn break_one_inequality(self, rng: &mut Rng, changed: &mut Certified) -> Option<usize> {
        let n = changed.bundle.n;
        let inequality = match self {
            BundleFault::SumTooLarge => 0,
            BundleFault::BeforeTooLarge => rng.within(1..=n),
            _ => rng.within(n + 1..=2 * n),
        };
        let number = any_of_kind_0(rng, changed)?;
        let step = changed.wrong_continuations()[number];
        let weights = weights_but_for(rng, &changed.rows, &changed.completed(), step, inequality)?;
        changed.bundle.certificates[number] = weights;
        Some(number)
    }
}

/// How a bundle is refused of which only this many bytes are there.
pub fn refusal_of_cut(layout: &Layout, length: usize) -> Refusal {
    let cut = |(_, range): &&(Field, Range<usize>)| range.contains(&length);
    let (_, range) = layout.fields.iter().find(cut).expect("a byte is missing");
    Refusal {
        number: 6,
        spot: range.start,
    }
}

/// Writes a value to a field of one byte or two.
pub fn write_value(bytes: &mut [u8], range: &Range<usize>, value: usize) {
    let size = range.len();
    bytes[range.clone()].copy_from_slice(&value.to_le_bytes()[..size]);
}

/// The bytes of a bundle with up to four changes: random fields set to values that
/// are near, at a border or any, the end cut or bytes added.
pub fn altered(rng: &mut Rng, bundle: &Bundle) -> Vec<u8> {
    let layout = bundle.layout();
    let mut bytes = layout.bytes;
    for _ in 0..rng.within(1..=4) {
        match rng.below(8) {
            0 => {
                let length = rng.within(1..=bytes.len());
                bytes.truncate(length);
            }
            1 => bytes.push(rng.choose(&[0, 1, 255])),
            _ => {
                let (_, range) = layout.fields[rng.below(layout.fields.len())].clone();
                if range.end <= bytes.len() {
                    let value = bytes[range.clone()]
                        .iter()
                        .rev()
                        .fold(0, |value, &byte| 256 * value + usize::from(byte));
                    let any = rng.below(65_536);
                    let values = [value.wrapping_sub(1), value + 1, 0, 1, 64, 65, 65_535, any];
                    write_value(&mut bytes, &range, rng.choose(&values));
                }
            }
        }
    }
    bytes
}

/// A bundle with a value that is out of range in one of the fields of this kind.
fn with_wrong_value(
    rng: &mut Rng,
    certified: &Certified,
    field: Field,
) -> Option<(Vec<u8>, Refusal)> {
    let layout = certified.bundle.layout();
    let fields = layout.all(field);
    let range = fields[any_below(rng, fields.len())?].clone();
    let value = wrong_value(rng, certified, field);
    let mut bytes = layout.bytes;
    write_value(&mut bytes, &range, value);
    let spot = range.start;
    Some((bytes, Refusal { number: 7, spot }))
}

/// A value that is out of range for a field that has such values.
fn wrong_value(rng: &mut Rng, certified: &Certified, field: Field) -> usize {
    let n = certified.bundle.n;
    let rows = certified.rows.len();
    match field {
        Field::EventCount => {
            let between = rng.within(MAX_EVENTS + 1..=NEW);
            let above = rng.within(NEW + MAX_EVENTS + 1..=255);
            rng.choose(&[
                0,
                MAX_EVENTS + 1,
                NEW,
                NEW + MAX_EVENTS + 1,
                255,
                between,
                above,
            ])
        }
        Field::Mark => from(rng, 2, 255),
        Field::PairCount => from(rng, MAX_PAIRS + 1, 255),
        Field::PairWord => from(rng, certified.bundle.words.len(), 255),
        Field::Event | Field::TermEvent => from(rng, n, 255),
        Field::PlaceCount => from(rng, MAX_PLACES + 1, 255),
        Field::Kind => from(rng, 2, 255),
        Field::Listed => from(rng, certified.bundle.places.len(), 255),
        Field::K => 0,
        Field::TermCount => from(rng, MAX_TERMS + 1, 255),
        // Some are right when the high byte is lost.
        Field::TermRow if rng.below(2) == 0 => 256 + rng.below(rows.max(2)),
        Field::TermRow => from(rng, rows, 65_535),
        _ => unreachable!("{field:?} has no wrong value"),
    }
}

/// A number of the range, often the first, the second or the last.
fn from(rng: &mut Rng, first: usize, last: usize) -> usize {
    let any = rng.within(first..=last);
    rng.choose(&[first, first, (first + 1).min(last), any, last])
}

fn any_below(rng: &mut Rng, bound: usize) -> Option<usize> {
    (bound > 0).then(|| rng.below(bound))
}

fn any_certificate(
    rng: &mut Rng,
    certified: &Certified,
    is_wanted: impl Fn(&Certificate) -> bool,
) -> Option<usize> {
    let certificates = &certified.bundle.certificates;
    let wanted: Vec<usize> = (0..certificates.len())
        .filter(|&number| is_wanted(&certificates[number]))
        .collect();
    (!wanted.is_empty()).then(|| rng.choose(&wanted))
}

fn any_of_kind_0(rng: &mut Rng, certified: &Certified) -> Option<usize> {
    any_certificate(rng, certified, |c| matches!(c, Certificate::Place(_)))
}

fn any_of_kind_1(rng: &mut Rng, certified: &Certified) -> Option<usize> {
    any_certificate(rng, certified, |c| !matches!(c, Certificate::Place(_)))
}

/// Gives a place fewer initial tokens than it needs to fit.
fn take_initial_tokens(rng: &mut Rng, changed: &mut Certified, place: usize) -> Option<()> {
    let place = &mut changed.bundle.places[place];
    place.make_fit(&changed.rows);
    let most = place.m.checked_sub(1)?;
    let any = rng.within(0..=most.into()) as u16;
    place.m = rng.choose(&[most, most, any]);
    Some(())
}

/// Has an event take one token more out of a place than an allowed step leaves.
fn take_more_out(rng: &mut Rng, changed: &mut Certified, place: usize) -> Option<()> {
    let allowed = changed.allowed_steps();
    let Step { row, event } = allowed[any_below(rng, allowed.len())?];
    let counts = &changed.rows[row].counts;
    let place = &mut changed.bundle.places[place];
    while place.surplus(counts, event) >= 0 {
        // Each earlier occurrence of the event takes as much out.
        let step = 1 + counts[event] as i64;
        let more = place.surplus(counts, event) / step + 1;
        place.outs[event] = u16::try_from(i64::from(place.outs[event]) + more).ok()?;
    }
    Some(())
}

/// Has a certificate list a place that permits its step, preferably just so.
fn list_permitting_place(rng: &mut Rng, changed: &mut Certified) -> Option<Refusal> {
    let number = any_of_kind_0(rng, changed)?;
    let step = changed.wrong_continuations()[number];
    let surplus = |place: &u8| {
        changed.bundle.places[usize::from(*place)]
            .surplus(&changed.rows[step.row].counts, step.event)
    };
    let permitting: Vec<u8> = (0u8..)
        .take(changed.bundle.places.len())
        .filter(|place| surplus(place) >= 0)
        .collect();
    let any = permitting[any_below(rng, permitting.len())?];
    let least = permitting.into_iter().min_by_key(surplus)?;
    changed.bundle.certificates[number] = Certificate::Place(rng.choose(&[any, least]));
    Some(Refusal {
        number: 11,
        spot: number,
    })
}

/// Gives a place the tokens with which it just permits the step of a certificate
/// that lists it. It may then also permit that of an earlier one.
fn add_initial_tokens(rng: &mut Rng, changed: &mut Certified) -> Option<Refusal> {
    let number = any_of_kind_0(rng, changed)?;
    let wrong = changed.wrong_continuations();
    let listed = changed.bundle.certificates[number].clone();
    let Certificate::Place(place) = listed else {
        return None;
    };
    let place = &mut changed.bundle.places[usize::from(place)];
    let Step { row, event } = wrong[number];
    let lacking = -place.surplus(&changed.rows[row].counts, event);
    place.m = u16::try_from(i64::from(place.m) + lacking).ok()?;

    let lowest = (0..wrong.len()).find(|&other| {
        changed.bundle.certificates[other] == listed && !place.refuses(&changed.rows, wrong[other])
    });
    Some(Refusal {
        number: 11,
        spot: lowest?,
    })
}
