//! What is lent to the calls of the carried engine: tokens, buffers, numbers and events.

use super::MAX_TOKENS;
use crate::rng::Rng;
use crate::screening::MAX_WORD_EVENTS;

/// How many numbers to lend for so many places: none, too few by one, exactly, and more.
pub fn lengths(rng: &mut Rng, places: usize) -> [usize; 5] {
    [
        0,
        places.saturating_sub(1),
        places,
        places + 1,
        places + rng.within(2..=70),
    ]
}

/// So many numbers of any kind: few tokens, as many as a place can have at most and about so
/// many, and any others.
pub fn any_tokens(rng: &mut Rng, length: usize) -> Vec<u64> {
    let most = rng.choose(&[3, 65_535, 200_000, MAX_TOKENS]);
    let mut number = || match rng.below(200) {
        0 => rng.choose(&[MAX_TOKENS + 1, 1 << 32, 1 << 63, u64::MAX]),
        1 => rng.number(),
        2..=20 => MAX_TOKENS - rng.below(3) as u64,
        _ => rng.number() % (most + 1),
    };
    (0..length).map(|_| number()).collect()
}

/// Numbers of events worth trying.
pub fn any_number(rng: &mut Rng) -> usize {
    match rng.below(3) {
        0 => rng.choose(&[65_535, 65_536, 1 << 32, usize::MAX]),
        1 => rng.choose(&[0, 1, 65_533, 65_534]),
        _ => rng.below(65_535),
    }
}

/// Events worth trying on a net of `n`: mostly one that is there.
pub fn any_event(rng: &mut Rng, n: usize) -> usize {
    match rng.below(5) {
        0 => rng.choose(&[n, n + 1, 12, 255, 256, 65_536, 1 << 32, usize::MAX]),
        _ => rng.below(n),
    }
}

/// A buffer of any bytes with room for an event behind so many, of any length. A run has no
/// events behind 65,535, where there need be no room.
pub fn room(rng: &mut Rng, number: usize) -> Vec<u8> {
    let length = number.min(MAX_WORD_EVENTS) + rng.within(1..=9);
    rng.bytes(length)
}

/// A buffer of any bytes: none, shorter than so many events, as long, and longer.
pub fn any_kept(rng: &mut Rng, number: usize) -> Vec<u8> {
    let number = number.min(MAX_WORD_EVENTS);
    let length = match rng.below(10) {
        0 => 0,
        1 => rng.within(0..=number),
        2 => number.saturating_sub(1),
        3 => number,
        4 => number + 1,
        _ => return room(rng, number),
    };
    rng.bytes(length)
}
