//! The calls that write a bundle anew.

use crate::calls::{Buffers, Call, Side};
use differential::bundles::{SAMPLE_A, SAMPLE_A_NEW, SAMPLE_NEW};
use differential::editions::make_new;
use differential::limits::{Size, LARGEST, LARGEST_FITTING, MIDDLE};
use differential::nets::Certified;
use differential::pruning::{idle_count, name_lowest};
use differential::rng::Rng;
use differential::sales::{Sales, LARGEST_NEW};
use hovmekhar::{MAX_BUNDLE_SIZE, TABLE_SIZE};
use std::hint::black_box;

/// Pruning and conversion of bundles that are accepted.
pub fn on_bundles() -> Vec<Call<Lent, u8>> {
    let mut all = pruning();
    all.extend(to_new());
    all.extend(to_old());
    all
}

fn pruning() -> Vec<Call<Lent, u8>> {
    let sizes: [Prepared; 5] = [
        ("53 bytes, 2 places", || lent(SAMPLE_A.to_vec())),
        ("1,630 bytes, 12 places, 7 idle", || {
            lent(idle_bundle(MIDDLE, 7))
        }),
        ("64,512 bytes, 64 places, 55 idle", || {
            lent(idle_bundle(LARGEST, 55))
        }),
        ("80 bytes, 2 places, new edition", || {
            lent(SAMPLE_NEW.to_vec())
        }),
        ("64,512 bytes, 64 places, 59 idle, new edition", || {
            lent(new_idle_bundle(LARGEST_NEW, 59))
        }),
    ];
    let ours = |buffers: &mut _| on_lent(buffers, hovmekhar::prune);
    let reference = |buffers: &mut _| on_lent(buffers, reference::prune);
    lines("prune", &sizes, ours, reference)
}

fn to_new() -> Vec<Call<Lent, u8>> {
    let sizes: [Prepared; 3] = [
        ("53 bytes, 2 words", || lent(SAMPLE_A.to_vec())),
        ("1,630 bytes, 20 words", || lent(bundle(MIDDLE))),
        ("64,008 bytes, 252 words", || lent(bundle(LARGEST_FITTING))),
    ];
    let ours = |buffers: &mut _| on_lent(buffers, hovmekhar::to_new);
    let reference = |buffers: &mut _| on_lent(buffers, reference::to_new);
    lines("to_new", &sizes, ours, reference)
}

fn to_old() -> Vec<Call<Lent, u8>> {
    let sizes: [Prepared; 3] = [
        ("56 bytes, 2 words", || lent(SAMPLE_A_NEW.to_vec())),
        ("1,689 bytes, 20 words", || lent(new_bundle(MIDDLE))),
        ("64,512 bytes, 252 words", || {
            lent(new_bundle(LARGEST_FITTING))
        }),
    ];
    let ours = |buffers: &mut _| on_lent(buffers, hovmekhar::to_old);
    let reference = |buffers: &mut _| on_lent(buffers, reference::to_old);
    lines("to_old", &sizes, ours, reference)
}

/// A size, and the buffers with such a bundle.
type Prepared = (&'static str, fn() -> Buffers<Lent, u8>);

/// A line for each size.
fn lines(
    name: &'static str,
    sizes: &[Prepared],
    ours: Side<Lent, u8>,
    reference: Side<Lent, u8>,
) -> Vec<Call<Lent, u8>> {
    let line = |&(size, prepare): &Prepared| Call {
        name,
        size,
        prepare,
        ours,
        reference,
    };
    sizes.iter().map(line).collect()
}

/// A bundle, and a table to judge it with.
pub struct Lent {
    bundle: Vec<u8>,
    table: Vec<u16>,
}

/// A call of either side.
type Rewrite<E> = fn(&[u8], &mut [u8], &mut [u16]) -> Result<usize, E>;

fn on_lent<E>(buffers: &mut Buffers<Lent, u8>, call: Rewrite<E>) -> Option<usize> {
    let Lent { bundle, table } = &mut buffers.input;
    let output = black_box(&mut buffers.output);
    call(black_box(bundle), output, black_box(table)).ok()
}

/// A bundle with a table and an output that are long enough for every call.
fn lent(bundle: Vec<u8>) -> Buffers<Lent, u8> {
    Buffers {
        input: Lent {
            bundle,
            table: vec![0; TABLE_SIZE],
        },
        output: vec![0; MAX_BUNDLE_SIZE],
    }
}

/// A bundle of this size, the same in every run.
fn bundle(size: Size) -> Vec<u8> {
    size.certified(&mut Rng::new(0)).bundle.bytes()
}

/// The same in the new edition, without a completed word.
fn new_bundle(size: Size) -> Vec<u8> {
    let mut bundle = size.certified(&mut Rng::new(0)).bundle;
    make_new(&mut bundle);
    bundle.bytes()
}

/// A bundle of this size, the same in every run, with so many idle places.
fn idle_bundle(size: Size, idle: usize) -> Vec<u8> {
    with_idle(size.certified(&mut Rng::new(0)), idle)
}

/// The same in the new edition, with completed words and pairs.
fn new_idle_bundle(size: Sales, idle: usize) -> Vec<u8> {
    with_idle(size.certified(&mut Rng::new(0)), idle)
}

fn with_idle(mut certified: Certified, idle: usize) -> Vec<u8> {
    name_lowest(&mut certified);
    assert_eq!(idle_count(&certified.bundle), idle);
    certified.bundle.bytes()
}
