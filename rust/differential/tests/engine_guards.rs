//! The carried engine: guards around the bundle, the tokens, the kept events and the answer,
//! at every alignment, for starts and steps.

use differential::bundles::{five_long_words, SAMPLE_A, SAMPLE_E, SAMPLE_F, SAMPLE_NEW};
use differential::engine::MAX_TOKENS;
use differential::guarded::carried::{at_every_alignment, Call, Case, Lent};
use differential::run::Run;
use hovmekhar::ffi;

fn start(bundle: &[u8], tokens: &[u64], number: u32, spot: u64, left: &[u64]) -> Case {
    Case {
        call: Call::Start,
        lent: Lent {
            bundle: bundle.to_vec(),
            tokens: tokens.to_vec(),
            ..Lent::default()
        },
        number,
        answered: vec![spot],
        left: left.to_vec(),
    }
}

/// A step with a buffer of so many bytes.
fn step(
    bundle: &[u8],
    (tokens, kept_len): (&[u64], usize),
    (number, event): (usize, usize),
    returned: u32,
    answered: &[u64],
    left: &[u64],
) -> Case {
    Case {
        call: Call::Step(number, event),
        lent: Lent {
            bundle: bundle.to_vec(),
            tokens: tokens.to_vec(),
            kept: vec![77; kept_len],
            ..Lent::default()
        },
        number: returned,
        answered: answered.to_vec(),
        left: left.to_vec(),
    }
}

/// 64 places that permit everything, or of which the last permits nothing.
fn many_places() -> [Vec<u8>; 2] {
    let many = [vec![1, 0, 64], vec![0; 64 * 6]].concat();
    let mut last_takes_most = many.clone();
    last_takes_most[3 + 64 * 6 - 2..].fill(255);
    [many, last_takes_most]
}

fn starts() -> Vec<Case> {
    let a = SAMPLE_A.as_slice();
    let five_words = five_long_words(1);
    let [many, _] = many_places();
    vec![
        start(a, &[8, 9], 0, 0, &[1, 2]),
        start(a, &[8, 9, 10], 0, 0, &[1, 2]),
        start(&SAMPLE_NEW, &[8; 66], 0, 0, &[1, 0]),
        start(&SAMPLE_F, &[], 0, 0, &[]),
        start(&many, &[1; 64], 0, 0, &[0; 64]),
        start(a, &[], 5, 2, &[]),
        start(a, &[8], 5, 2, &[]),
        start(&[], &[8], 4, 0, &[]),
        start(&a[..28], &[8, 9], 6, 27, &[]),
        start(&[0, 0, 0], &[8, 9], 7, 0, &[]),
        start(&five_words, &[8, 9], 8, 2 + 4 * 256, &[]),
    ]
}

fn steps() -> Vec<Case> {
    let a = SAMPLE_A.as_slice();
    let five_words = five_long_words(1);
    let [many, last_takes_most] = many_places();
    let ones = [1; 64];
    let stopped = ffi::STOPPED;
    let (two, one): (&[u64], &[u64]) = (&[1, 2], &[1]);
    vec![
        step(a, (two, 1), (0, 0), 0, &[1], &[1, 1]),
        step(a, (&[1, 2, u64::MAX], 20), (7, 1), 0, &[8], &[0, 2]),
        step(&SAMPLE_F, (&[], 65_535), (65_534, 0), 0, &[65_535], &[]),
        step(&many, (&ones, 2), (1, 0), 0, &[2], &ones),
        step(a, (&[5, 0], 8), (7, 0), stopped, &[7, 1, 1], &[]),
        step(
            &last_takes_most,
            (&ones, 11),
            (9, 0),
            stopped,
            &[9, 63, 65_534],
            &[],
        ),
        step(&SAMPLE_E, (&[0], 1), (0, 0), stopped, &[0, 0, 1], &[]),
        step(a, (two, 8), (65_535, 0), 14, &[65_535], &[]),
        step(&[], (two, 8), (7, 0), 4, &[0], &[]),
        step(&a[..28], (two, 8), (7, 0), 6, &[27], &[]),
        step(&[0, 0, 0], (two, 8), (7, 0), 7, &[0], &[]),
        step(&five_words, (two, 8), (7, 0), 8, &[2 + 4 * 256], &[]),
        step(a, (&[], 8), (7, 0), 5, &[2], &[]),
        step(a, (one, 0), (7, 0), 5, &[2], &[]),
        step(a, (&[1, MAX_TOKENS + 1], 0), (7, 2), 16, &[1], &[]),
        step(a, (two, 0), (7, 2), 15, &[7], &[]),
        step(a, (two, 0), (0, 0), 3, &[1], &[]),
        step(a, (two, 7), (7, 1), 3, &[8], &[]),
        step(a, (&[0, 0], 7), (9, 1), 3, &[10], &[]),
    ]
}

/// Nothing changes but what the answer allows, whatever else it held.
#[test]
fn guards_stay_as_they_were() {
    let mut run = Run::start("engine_guards");
    let cases = [starts(), steps()].concat();
    let times = at_every_alignment(&mut run, &cases);
    let both = [4, 6, 7, 8].map(|number| (number, 2 * times));
    let others = [
        (0, 12 * times),
        (3, 3 * times),
        (5, 4 * times),
        (14, times),
        (15, times),
        (16, times),
    ];
    run.finish(&[both.as_slice(), &others].concat());
}
