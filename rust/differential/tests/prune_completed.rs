//! Pruning of the new edition: edition, marks and pairs stay.

use differential::bundles::{unbalanced, Bundle, SAMPLE_NEW};
use differential::nets::{small_certified_in, Certified};
use differential::pruning::{
    contents, idle_count, name_lowest, prune, prune_accepted, pruned, Idle,
};
use differential::run::{refusal, Run};
use differential::sales::{LARGEST_NEW, MIDDLE_NEW};

/// The bundle with a place in front that keeps its tokens, and without it, byte by byte.
#[test]
fn by_hand() {
    let mut run = Run::start("prune_completed::by_hand");
    let idle = [7, 0, 1, 0, 2, 0, 3, 0, 1, 0, 2, 0, 3, 0];
    let mut with_idle = [&SAMPLE_NEW[..11], &[3], &idle, &SAMPLE_NEW[12..]].concat();
    // The numbers of the places: the certificates of kind 1 are the second and the fifth.
    for at in [41, 56, 58, 73, 75, 77, 79].map(|at| at + idle.len()) {
        with_idle[at] += 1;
    }
    let outcome = prune(&mut run, &with_idle);
    assert_eq!(outcome.as_deref(), Ok(SAMPLE_NEW.as_slice()), "{run}");
    let outcome = prune(&mut run, &SAMPLE_NEW);
    assert_eq!(outcome.as_deref(), Ok(SAMPLE_NEW.as_slice()), "{run}");

    // A place that no certificate names has to obey, too.
    let mut disobeys = with_idle.clone();
    disobeys[14] += 1;
    assert_eq!(prune(&mut run, &disobeys), refusal(20, 0), "{run}");
    assert_eq!(prune(&mut run, &unbalanced()), refusal(20, 1), "{run}");
    run.finish(&[(0, 16), (3, 8), (5, 48), (20, 24)]);
}

/// Idle places are added to a bundle without any, which comes back.
#[test]
fn idle_places() {
    let mut run = Run::start("prune_completed::idle_places");
    for idle in Idle::ALL {
        for _ in 0..run.cases(25) {
            let mut certified = small_certified_in(&mut run.rng, true);
            certified.bundle = pruned(&certified.bundle);
            let without = certified.bundle.bytes();
            let count = run.rng.choose(&[1, 1, 2, 5, 64]);
            idle.add(&mut run.rng, &mut certified, count);
            if !certified.bundle.has_allowed_length() {
                continue;
            }
            let outcome = prune(&mut run, &certified.bundle.bytes());
            assert_eq!(outcome.as_ref(), Ok(&without), "{idle:?}, {run}");
            let pairs = contents(&without)
                .certificates
                .iter()
                .any(|c| !c.pairs().is_empty());
            if pairs {
                run.note("pairs");
            }
        }
    }
    run.finish_with_classes(&[(0, 900)], &[("pairs", 30)]);
}

/// Middle and largest bundles: judged as before, and pruning once more changes nothing.
#[test]
fn large_bundles() {
    let mut run = Run::start("prune_completed::large_bundles");
    for size in [MIDDLE_NEW, LARGEST_NEW] {
        let mut certified = size.certified(&mut run.rng);
        name_lowest(&mut certified);
        let Certified { bundle, counts, .. } = &certified;
        let idle = idle_count(bundle);
        assert!(idle > 0, "{run}");
        let bytes = bundle.bytes();
        let result = prune_accepted(&mut run, &bytes);
        assert_eq!(
            result.len(),
            bytes.len() - idle * (2 + 4 * bundle.n),
            "{run}"
        );
        let new = contents(&result);
        assert_eq!(
            (&new.words, &new.marks),
            (&bundle.words, &bundle.marks),
            "{run}"
        );
        let pairs = |bundle: &Bundle| -> Vec<_> {
            let certificates = bundle.certificates.iter();
            certificates.map(|c| c.pairs().to_vec()).collect()
        };
        assert!(pairs(&new) == pairs(bundle), "other pairs: {run}");
        let noise: Vec<u16> = run.rng.items(4_000);
        let judged = run.judge(&result, &noise);
        assert_eq!(judged.outcome, Ok(*counts), "{run}");
        assert!(prune_accepted(&mut run, &result) == result, "{run}");
    }
    run.finish(&[(0, 6)]);
}
