//! Timing of two sides in turn.

use crate::calls::{Buffers, Call, Side};
use std::hint::black_box;
use std::time::{Duration, Instant};

/// Rounds for each side; odd, so that there is a median.
pub const ROUNDS: usize = 51;

/// How long a round takes at least. Long enough that reading the clock does not
/// count, short enough that few rounds are interrupted.
const ROUND_TIME: Duration = Duration::from_millis(2);

/// The median nanoseconds of one call: ours, then the reference's.
pub fn compare<I, T: Default + Clone + PartialEq>(call: &Call<I, T>) -> (f64, f64) {
    let mut buffers = (call.prepare)();
    check_agreement(call, &mut buffers);

    // Finding the repetitions also warms up both sides.
    let ours_repetitions = repetitions(call.ours, &mut buffers);
    let reference_repetitions = repetitions(call.reference, &mut buffers);
    let mut ours = Vec::with_capacity(ROUNDS);
    let mut reference = Vec::with_capacity(ROUNDS);
    for _ in 0..ROUNDS {
        ours.push(round(call.ours, ours_repetitions, &mut buffers));
        reference.push(round(call.reference, reference_repetitions, &mut buffers));
    }
    (median(ours), median(reference))
}

/// Times are comparable only where both sides give the same result.
fn check_agreement<I, T: Default + Clone + PartialEq>(
    call: &Call<I, T>,
    buffers: &mut Buffers<I, T>,
) {
    let ours = (call.ours)(buffers);
    let ours_output = buffers.output.clone();
    buffers.output.fill(T::default());
    let reference = (call.reference)(buffers);
    assert!(ours.is_some(), "{} was refused", call.name);
    assert_eq!(ours, reference, "{}: different answers", call.name);
    assert!(
        ours_output == buffers.output,
        "{}: different outputs",
        call.name
    );
}

/// How many calls fill a round.
fn repetitions<I, T>(side: Side<I, T>, buffers: &mut Buffers<I, T>) -> u32 {
    let mut repetitions = 1;
    while time(side, repetitions, buffers) < ROUND_TIME {
        repetitions *= 2;
    }
    repetitions
}

/// The nanoseconds of one call, over a round.
fn round<I, T>(side: Side<I, T>, repetitions: u32, buffers: &mut Buffers<I, T>) -> f64 {
    time(side, repetitions, buffers).as_nanos() as f64 / f64::from(repetitions)
}

fn time<I, T>(side: Side<I, T>, repetitions: u32, buffers: &mut Buffers<I, T>) -> Duration {
    let start = Instant::now();
    for _ in 0..repetitions {
        black_box(side(buffers));
    }
    start.elapsed()
}

fn median(mut times: Vec<f64>) -> f64 {
    times.sort_by(f64::total_cmp);
    times[times.len() / 2]
}
