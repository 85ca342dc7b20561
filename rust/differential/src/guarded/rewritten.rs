//! The calls that write a bundle anew, between guards.

use super::Guarded;
use crate::bundles::one_for_each_answer;
use crate::logs::TABLE;
use crate::rewriting::{keeps_table, Rewrite};
use crate::run::Run;
use hovmekhar::ffi;

/// Alignments to try: all within a cache line, more than any load asks for.
pub const ALIGNMENTS: usize = 64;

/// A call that judges a bundle and writes it anew, and what has to come of it.
#[derive(Clone, Copy)]
pub struct Rewritten<'b> {
    /// The call.
    pub call: Rewrite,
    /// The bundle that is lent.
    pub bundle: &'b [u8],
    /// The length of the output.
    pub output_len: usize,
    /// The length of the table.
    pub table_len: usize,
    /// The number that is returned.
    pub number: u8,
    /// What is in `answer[0]`.
    pub answered: usize,
    /// The bytes at the front of the output.
    pub written: &'b [u8],
}

impl Rewritten<'_> {
    /// Makes the call with guards of these lengths before bundle, output and table, and
    /// checks that nothing changed but what is to be written.
    fn between_guards(&self, run: &mut Run, [bundle, output, table]: [usize; 3]) {
        let place = format!(
            "{:?} after {bundle}, {output} and {table}, {run}",
            self.call
        );
        let rng = &mut run.rng;
        let bundle = Guarded::new(&rng.bytes(bundle), self.bundle, &rng.bytes(100));
        let noise = rng.bytes(self.output_len);
        let mut output = Guarded::new(&rng.bytes(output), &noise, &rng.bytes(100));
        let numbers = rng.items(self.table_len);
        let mut table = Guarded::<u16>::new(&rng.items(table), &numbers, &rng.items(100));
        let mut answer = Guarded::new(
            &rng.numbers::<4>(),
            &rng.numbers::<4>(),
            &rng.numbers::<4>(),
        );
        let four: &mut ffi::Answer = answer.lent_mut().try_into().expect("four numbers");
        run.count(self.number);
        let ours = self.call.ours();
        let number = ours(bundle.lent(), output.lent_mut(), table.lent_mut(), four);

        assert_eq!(number, u32::from(self.number), "{place}");
        assert_eq!(answer.lent()[0], self.answered as u64, "{place}");
        let written = self.written.len();
        assert!(output.lent()[..written] == *self.written, "{place}");
        assert!(bundle.kept_beyond(0), "bundle or its guards: {place}");
        assert!(output.kept_beyond(written), "output or guards: {place}");
        let in_table = match keeps_table(self.bundle, self.number) {
            true => 0,
            false => TABLE,
        };
        assert!(table.kept_beyond(in_table), "table or guards: {place}");
        assert!(answer.kept_beyond(1), "answer or its guards: {place}");
    }

    /// At this alignment of each buffer, with any of the others.
    pub fn at_alignment(&self, run: &mut Run, alignment: usize) {
        for side in 0..3 {
            let mut fronts = [0; 3].map(|_| ALIGNMENTS + run.rng.below(ALIGNMENTS));
            fronts[side] = ALIGNMENTS + alignment;
            self.between_guards(run, fronts);
        }
    }
}

/// At this alignment a call that has this result: with two tables and three outputs that are
/// long enough, and three that are too short. So it has a result 18 times, and 3 as often.
pub fn result_at_alignment(
    run: &mut Run,
    call: Rewrite,
    alignment: usize,
    bundle: &[u8],
    result: &[u8],
) {
    let needed = result.len();
    let longest = needed.max(bundle.len()) + 9;
    for table_len in [TABLE, TABLE + 9] {
        for output_len in [needed, needed + 1, longest, needed - 1, 1, 0] {
            let is_short = output_len < needed;
            let case = Rewritten {
                call,
                bundle,
                output_len,
                table_len,
                number: if is_short { 3 } else { 0 },
                answered: needed,
                written: if is_short { &[] } else { result },
            };
            case.at_alignment(run, alignment);
        }
    }
}

/// At this alignment a call that is refused so, with an output of no byte and one that is
/// longer than the bundle: 6 times.
pub fn refusal_at_alignment(
    run: &mut Run,
    call: Rewrite,
    alignment: usize,
    bundle: &[u8],
    [table_len, number, spot]: [usize; 3],
) {
    for output_len in [0, bundle.len() + 9] {
        let case = Rewritten {
            call,
            bundle,
            output_len,
            table_len,
            number: number as u8,
            answered: spot,
            written: &[],
        };
        case.at_alignment(run, alignment);
    }
}

/// At this alignment each refusal of judging, among them 5 of accepted bundles: 6 times each
/// of 6 to 13 and 20, 3 times as often 4, and 22 times as often 5.
pub fn judging_refused_at_alignment(run: &mut Run, call: Rewrite, alignment: usize) {
    for (bundle, outcome) in one_for_each_answer() {
        let short_table = [TABLE - 1, 0].map(|length| [length, 5, TABLE]);
        let cases = match outcome {
            Ok(_) => short_table.to_vec(),
            Err(refused) if refused.number == 4 => {
                [TABLE, TABLE - 1, 0].map(|length| [length, 4, 0]).to_vec()
            }
            Err(refused) => {
                let refused = [TABLE, refused.number.into(), refused.spot];
                [short_table.as_slice(), &[refused]].concat()
            }
        };
        for case in cases {
            refusal_at_alignment(run, call, alignment, &bundle, case);
        }
    }
}
