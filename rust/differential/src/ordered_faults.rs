//! Several faults at once in a bundle, and which of them the judge names.

use crate::bundle_faults::{refusal_of_cut, write_value};
use crate::bundles::Layout;
use crate::logs::TABLE;
use crate::run::{refusal, Run};
use reference::Refusal;
use std::ops::Range;

/// A fault that leaves the fields where they are.
pub struct OrderedFault {
    /// The fields that have another value, and that value.
    pub fields: Vec<(Range<usize>, usize)>,
    /// How it is refused.
    pub refusal: Refusal,
    /// How many bytes are read when it is noticed.
    pub noticed: usize,
}

impl OrderedFault {
    /// A value that is out of range.
    pub fn value(range: Range<usize>, value: usize) -> Self {
        Self {
            refusal: Refusal {
                number: 7,
                spot: range.start,
            },
            noticed: range.end,
            fields: vec![(range, value)],
        }
    }

    /// Writes it into the bytes of a bundle.
    pub fn write(&self, bytes: &mut [u8]) {
        for (range, value) in &self.fields {
            write_value(bytes, range, *value);
        }
    }
}

/// Judges a bundle with these faults, in the order in which they are noticed, of which
/// only so many bytes are there or to which bytes are added, so that it is not accepted.
/// The first fault that is noticed has to be named.
pub fn judge(run: &mut Run, layout: &Layout, faults: &[&OrderedFault], length: usize) {
    let mut bytes = layout.bytes.clone();
    let whole = bytes.len();
    for fault in faults {
        fault.write(&mut bytes);
    }
    bytes.resize(length, 0);

    let noticed = faults.iter().find(|fault| fault.noticed <= length);
    let expected = match noticed {
        Some(fault) => Err(fault.refusal),
        None if length < whole => Err(refusal_of_cut(layout, length)),
        None => refusal(13, whole),
    };
    let table: Vec<u16> = run.rng.items(TABLE);
    let judged = run.judge(&bytes, &table);
    assert_eq!(judged.outcome, expected, "{length} bytes, {run}");
    assert!(judged.table.iter().all(|&number| number == 0), "{run}");
}

/// A length other than that of the bundle, and at least 1.
pub fn any_length(run: &mut Run, layout: &Layout, faults: &[OrderedFault]) -> usize {
    let whole = layout.bytes.len();
    let any = run.rng.within(1..=whole - 1);
    let noticed = faults[run.rng.below(faults.len())].noticed;
    let longer = whole + run.rng.within(1..=100);
    let near = run.rng.choose(&[noticed - 1, noticed, noticed + 1]);
    match run.rng.choose(&[any, near.max(1), longer, longer]) {
        length if length == whole => whole + 1,
        length => length,
    }
}

/// Each two of the faults, with all bytes and one more, and with another length.
pub fn judge_pairs(run: &mut Run, layout: &Layout, faults: &[OrderedFault]) {
    for first in 0..faults.len() {
        for second in first..faults.len() {
            let both = [&faults[first], &faults[second]];
            judge(run, layout, &both, layout.bytes.len() + 1);
            let length = any_length(run, layout, faults);
            judge(run, layout, &both, length);
        }
    }
}

/// So many sets of the faults, with any length.
pub fn judge_sets(run: &mut Run, layout: &Layout, faults: &[OrderedFault], count: usize) {
    for _ in 0..count {
        let rarity = run.rng.within(2..=12);
        let set: Vec<&OrderedFault> = faults
            .iter()
            .filter(|_| run.rng.below(rarity) == 0)
            .collect();
        let length = any_length(run, layout, faults);
        judge(run, layout, &set, length);
    }
}
