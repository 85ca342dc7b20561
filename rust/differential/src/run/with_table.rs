//! The calls that lend both an output and a table.

use super::{Outcome, Run, Written};
use crate::logs::TABLE;
use crate::rewriting::{keeps_table, Rewrite};

/// What such a call did, the same on both sides.
pub struct WithTable {
    /// The answer.
    pub outcome: Outcome,
    /// The whole output after the call.
    pub output: Vec<u8>,
    /// The whole table after the call.
    pub table: Vec<u16>,
}

impl Run {
    /// Prunes a bundle, as [`Run::rewrite`] does.
    pub fn prune(&mut self, bundle: &[u8], output_len: usize, table: &[u16]) -> WithTable {
        self.rewrite(Rewrite::Prune, bundle, output_len, table)
    }

    /// Makes a call on both sides, with copies of this table and outputs of noise, and
    /// compares as [`Run::rewrite_into`] does.
    pub fn rewrite(
        &mut self,
        call: Rewrite,
        bundle: &[u8],
        output_len: usize,
        table: &[u16],
    ) -> WithTable {
        let noise = self.rng.bytes(output_len);
        self.rewrite_into(call, bundle, noise, table)
    }

    /// Makes a call on both sides, with copies of this output and this table, and compares.
    /// Of the output only the result's bytes may change, and none when the call is refused;
    /// the table may change unless judging refuses with 4 or 5, also when the output is too
    /// short.
    pub fn rewrite_into(
        &mut self,
        call: Rewrite,
        bundle: &[u8],
        mut output: Vec<u8>,
        table: &[u16],
    ) -> WithTable {
        let (ours, reference) = (call.ours(), call.reference());
        let mut our_output = self.guarded(&output);
        let (outcome, table) = self.compare(
            [bundle],
            table.to_vec(),
            |[bundle], table, answer| ours(bundle, our_output.lent_mut(), table, answer),
            |[bundle], table| reference(bundle, &mut output, table),
            |length| Written {
                items: TABLE,
                ..Written::length(length)
            },
            |refused| match keeps_table(bundle, refused.number) {
                true => 0,
                false => TABLE,
            },
        );
        assert!(our_output.lent() == output, "the outputs differ: {self}");
        assert!(
            our_output.kept_beyond(outcome.unwrap_or(0)),
            "changed beyond the result, in the output or around it: {self}"
        );
        WithTable {
            outcome,
            output,
            table,
        }
    }
}
