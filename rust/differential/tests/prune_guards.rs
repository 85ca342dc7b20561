//! Pruning: guards around the bundle, the output, the table and the answer, at every
//! alignment.

use differential::guarded::rewritten::{
    judging_refused_at_alignment, result_at_alignment, ALIGNMENTS,
};
use differential::pruning::{WITHOUT_IDLE, WITH_IDLE};
use differential::rewriting::Rewrite;
use differential::run::Run;

#[test]
fn guards_of_results_stay_as_they_were() {
    let mut run = Run::start("guards_of_results_stay_as_they_were");
    for alignment in 0..ALIGNMENTS {
        for bundle in [WITH_IDLE.as_slice(), &WITHOUT_IDLE] {
            result_at_alignment(&mut run, Rewrite::Prune, alignment, bundle, &WITHOUT_IDLE);
        }
    }
    run.finish(&[(0, 64 * 36), (3, 64 * 36)]);
}

#[test]
fn guards_of_refusals_stay_as_they_were() {
    let mut run = Run::start("guards_of_refusals_stay_as_they_were");
    for alignment in 0..ALIGNMENTS {
        judging_refused_at_alignment(&mut run, Rewrite::Prune, alignment);
    }
    let times = 64 * 6;
    let of_judge = [6, 7, 8, 9, 10, 11, 12, 13, 20].map(|number| (number, times));
    run.finish(&[&[(4, 3 * times), (5, 22 * times)], of_judge.as_slice()].concat());
}
