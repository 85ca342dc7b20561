//! Faults of the new edition: places that do not obey, and pairs that do not hold.

use super::{any_below, any_of_kind_1, take_more_out, BundleFault};
use crate::bundles::{Certificate, Pair, MAX_PAIRS};
use crate::nets::Certified;
use crate::rng::Rng;
use reference::Refusal;

/// Has a place, or two of them, not obey. A place that does not fit comes first.
pub fn break_obedience(
    fault: BundleFault,
    rng: &mut Rng,
    changed: &mut Certified,
) -> Option<Refusal> {
    let places = changed.bundle.places.len();
    if fault == BundleFault::Disobeys {
        let spot = any_below(rng, places)?;
        disobey(rng, changed, spot)?;
        return Some(Refusal { number: 20, spot });
    }
    if places < 2 {
        return None;
    }
    let (low, high) = rng.two_below(places);
    if fault == BundleFault::TwoDisobey {
        disobey(rng, changed, low)?;
        disobey(rng, changed, high)?;
        return Some(Refusal {
            number: 20,
            spot: low,
        });
    }
    let (other, spot) = rng.choose(&[(low, high), (high, low)]);
    disobey(rng, changed, other)?;
    take_more_out(rng, changed, spot)?;
    Some(Refusal { number: 10, spot })
}

/// Has an event of a completed word put more tokens into a place, or take more out of one
/// that has as many more at first. It then still fits.
fn disobey(rng: &mut Rng, changed: &mut Certified, place: usize) -> Option<()> {
    let completed = changed.completed();
    let word = &completed[any_below(rng, completed.len())?];
    let events: Vec<usize> = (0..changed.bundle.n)
        .filter(|&event| word.counts[event] > 0)
        .collect();
    let event = events[any_below(rng, events.len())?];
    let place = &mut changed.bundle.places[place];
    if rng.below(2) == 0 {
        // A word has at most 255 events.
        let fewer = rng.choose(&[1, 1, 200]);
        place.outs[event] = place.outs[event].checked_add(fewer)?;
        place.m = place.m.checked_add(255 * fewer)?;
        return Some(());
    }
    let number = &mut place.ins[event];
    let more = rng.choose(&[1, 1, 256, 65_535 - *number]);
    *number = number.checked_add(more.max(1))?;
    Some(())
}

/// Changes the pairs of a certificate, and returns its number. Weights that hold add up
/// to k, all on the event of the step, so the counts of terms and pairs add up exactly:
/// no weight on a word with events can be another.
pub fn change_pairs(fault: BundleFault, rng: &mut Rng, changed: &mut Certified) -> Option<usize> {
    let words = changed.bundle.words.clone();
    let partial: Vec<u8> = (0u8..)
        .take(words.len())
        .filter(|&word| !changed.bundle.is_completed(word.into()))
        .collect();
    if !changed.bundle.is_new() {
        return None;
    }
    let number = any_of_kind_1(rng, changed)?;
    let Certificate::Weights { pairs, .. } = &mut changed.bundle.certificates[number] else {
        return None;
    };
    if fault == BundleFault::PairPartial {
        let word = partial[any_below(rng, partial.len())?];
        let weight = rng.choose(&[0, 0, 1, -1, 32_767, -32_768]);
        let at = rng.within(0..=pairs.len());
        if pairs.len() == MAX_PAIRS {
            return None;
        }
        pairs.insert(at, Pair { word, weight });
        return Some(number);
    }

    let any = any_below(rng, pairs.len())?;
    let Pair { word, weight } = pairs[any];
    if words[usize::from(word)].is_empty() {
        return None;
    }
    match fault {
        BundleFault::PairWeight => {
            let other = rng.number() as i16;
            let others = [weight.wrapping_add(1), weight.wrapping_sub(1), other];
            pairs[any].weight = rng.choose(&others);
            (pairs[any].weight != weight).then_some(number)
        }
        BundleFault::PairDropped if weight != 0 => {
            pairs.remove(any);
            Some(number)
        }
        BundleFault::PairRepeated if weight != 0 && pairs.len() < MAX_PAIRS => {
            pairs.push(pairs[any]);
            Some(number)
        }
        _ => None,
    }
}
