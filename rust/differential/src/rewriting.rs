//! The calls that judge a bundle and write it anew, each with a further reading of its rule
//! besides the reference.

use crate::editions::{in_new, in_old};
use crate::files::MAX_BUNDLE_SIZE;
use crate::judging::judge_by_definitions;
use crate::logs::TABLE;
use crate::pruning::{contents, pruned};
use crate::run::{output_lengths, refusal, Outcome, Run};
use hovmekhar::ffi;

/// Table lengths worth trying: none, too short by one, exact, longer.
pub const TABLE_LENGTHS: [usize; 4] = [0, TABLE - 1, TABLE, TABLE + 500];

/// A call that judges a bundle and writes it anew.
#[derive(Clone, Copy, Debug, PartialEq, Eq)]
pub enum Rewrite {
    /// Without idle places.
    Prune,
    /// In the new edition.
    ToNew,
    /// In the old edition.
    ToOld,
}

/// Such a call, ours and the reference's.
type Ours = fn(&[u8], &mut [u8], &mut [u16], &mut ffi::Answer) -> u32;
type Reference = fn(&[u8], &mut [u8], &mut [u16]) -> Outcome;

impl Rewrite {
    /// Those that convert.
    pub const CONVERSIONS: [Rewrite; 2] = [Rewrite::ToNew, Rewrite::ToOld];

    /// Ours.
    pub fn ours(self) -> Ours {
        match self {
            Rewrite::Prune => ffi::prune,
            Rewrite::ToNew => ffi::to_new,
            Rewrite::ToOld => ffi::to_old,
        }
    }

    /// The reference's.
    pub fn reference(self) -> Reference {
        match self {
            Rewrite::Prune => reference::prune,
            Rewrite::ToNew => reference::to_new,
            Rewrite::ToOld => reference::to_old,
        }
    }

    /// The length of an output that has room for every result from this bundle.
    pub fn room(self, bundle: &[u8]) -> usize {
        match self {
            Rewrite::Prune | Rewrite::ToOld => bundle.len(),
            // Each byte more follows a word's length or a certificate's kind.
            Rewrite::ToNew => (2 * bundle.len()).min(MAX_BUNDLE_SIZE),
        }
    }

    /// The call for a bundle of an allowed length by the definitions: returns the result,
    /// and what the first 3,584 numbers of the table are afterwards.
    pub fn by_definitions(self, bundle: &[u8]) -> (Outcome<Vec<u8>>, Vec<u16>) {
        let (judged, table) = judge_by_definitions(bundle);
        let result = judged.and_then(|_| {
            let contents = contents(bundle);
            match self {
                Rewrite::Prune => Ok(pruned(&contents).bytes()),
                Rewrite::ToNew => in_new(&contents),
                Rewrite::ToOld => in_old(&contents),
            }
        });
        (result, table)
    }
}

/// Whether a refusal is that of judging a bundle before anything is written to the table: 4
/// is also that of a result.
pub fn keeps_table(bundle: &[u8], number: u8) -> bool {
    let has_allowed_length = (1..=MAX_BUNDLE_SIZE).contains(&bundle.len());
    number == 5 || number == 4 && !has_allowed_length
}

/// Makes a call for a bundle of an allowed length on both sides, and checks all by the
/// definitions, as [`rewrite_as`] does.
pub fn rewrite(run: &mut Run, call: Rewrite, bundle: &[u8]) -> Outcome<Vec<u8>> {
    let (outcome, front) = call.by_definitions(bundle);
    rewrite_as(run, call, bundle, &outcome, &front);
    outcome
}

/// Makes a call for a bundle of an allowed length on both sides, with outputs and tables of
/// several lengths. Checks the answer, the output, and what the front of the table is
/// afterwards: 5 comes before what the bundle is refused with, and that before 3, which
/// leaves the log's rows in the table.
pub fn rewrite_as(
    run: &mut Run,
    call: Rewrite,
    bundle: &[u8],
    outcome: &Outcome<Vec<u8>>,
    front: &[u16],
) {
    let needed = outcome.as_ref().map_or(bundle.len(), Vec::len);
    for output_len in output_lengths(&mut run.rng, needed) {
        for table_len in TABLE_LENGTHS {
            let noise: Vec<u16> = run.rng.items(table_len);
            let done = run.rewrite(call, bundle, output_len, &noise);
            if table_len < TABLE {
                assert_eq!(done.outcome, refusal(5, TABLE), "{call:?}, {run}");
                assert!(done.table == noise, "another table: {call:?}, {run}");
                continue;
            }
            let expected = match outcome {
                Err(refused) => Err(*refused),
                Ok(_) if output_len < needed => refusal(3, needed),
                Ok(result) => {
                    let written = &done.output[..needed];
                    assert!(written == result, "{call:?}, {bundle:?}, {run}");
                    Ok(needed)
                }
            };
            assert_eq!(done.outcome, expected, "{call:?}, {bundle:?}, {run}");
            let (table, beyond) = done.table.split_at(TABLE);
            assert!(table == front, "another table: {call:?}, {run}");
            assert!(beyond == &noise[TABLE..], "beyond it: {call:?}, {run}");
        }
    }
}

/// Makes a call that has a result on both sides, into an output that has room for it, and
/// returns the result.
pub fn rewritten(run: &mut Run, call: Rewrite, bundle: &[u8]) -> Vec<u8> {
    let noise: Vec<u16> = run.rng.items(TABLE);
    let mut done = run.rewrite(call, bundle, call.room(bundle), &noise);
    let length = done.outcome.expect("a result");
    done.output.truncate(length);
    done.output
}
