//! Conversion between the editions: guards around the bundle, the output, the table and the
//! answer, at every alignment.

use differential::bundles::{SAMPLE_A, SAMPLE_A_NEW, SAMPLE_NEW};
use differential::guarded::rewritten::{
    judging_refused_at_alignment, refusal_at_alignment, result_at_alignment, ALIGNMENTS,
};
use differential::logs::TABLE;
use differential::rewriting::Rewrite::{self, ToNew, ToOld};
use differential::run::Run;

#[test]
fn guards_of_results_stay_as_they_were() {
    let mut run = Run::start("convert_guards::results");
    for alignment in 0..ALIGNMENTS {
        for (call, result) in [(ToNew, SAMPLE_A_NEW.as_slice()), (ToOld, &SAMPLE_A)] {
            for bundle in [SAMPLE_A.as_slice(), &SAMPLE_A_NEW] {
                result_at_alignment(&mut run, call, alignment, bundle, result);
            }
        }
        result_at_alignment(&mut run, ToNew, alignment, &SAMPLE_NEW, &SAMPLE_NEW);
    }
    run.finish(&[(0, 64 * 5 * 18), (3, 64 * 5 * 18)]);
}

#[test]
fn guards_of_refusals_stay_as_they_were() {
    let mut run = Run::start("convert_guards::refusals");
    for alignment in 0..ALIGNMENTS {
        for call in Rewrite::CONVERSIONS {
            judging_refused_at_alignment(&mut run, call, alignment);
        }
        let completed = [TABLE, 21, 0];
        refusal_at_alignment(&mut run, ToOld, alignment, &SAMPLE_NEW, completed);
    }
    let times = 64 * 6;
    let of_judge = [6, 7, 8, 9, 10, 11, 12, 13, 20].map(|number| (number, 2 * times));
    let others = [(4, 6 * times), (5, 44 * times), (21, times)];
    run.finish(&[others.as_slice(), &of_judge].concat());
}
