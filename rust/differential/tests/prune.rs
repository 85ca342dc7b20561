//! Pruning: accepted and refused bundles, with outputs and tables of every length.

use differential::bundle_faults::{altered, BundleFault};
use differential::bundles::{one_for_each_answer, SAMPLE_A, SAMPLE_E};
use differential::files::MAX_BUNDLE_SIZE;
use differential::logs::{table_of, TABLE};
use differential::nets::{small_certified, small_log, Certified};
use differential::pruning::{
    idle_count, prune, prune_by_definitions, pruned, Idle, WITHOUT_IDLE, WITH_IDLE,
};
use differential::rewriting::TABLE_LENGTHS;
use differential::run::{output_lengths, refusal, Run};

/// Bundles and their results, byte by byte.
#[test]
fn by_hand() {
    let mut run = Run::start("prune::by_hand");
    // Sample A with a place before, between and behind its own. The first has one token that
    // both events take out and put in, the second is the second of the sample again.
    let a_with_idle = [
        [2, 2, 1, 1, 3, 0, 0, 1].as_slice(),
        &[5, 1, 0, 1, 0, 1, 0, 1, 0, 1, 0],
        &[1, 0, 1, 0, 0, 0, 1, 0, 1, 0],
        &[2, 0, 0, 0, 0, 0, 1, 0, 0, 0],
        &[2, 0, 0, 0, 0, 0, 1, 0, 0, 0],
        &[0, 0, 0, 0, 0, 0, 0, 0, 0, 0],
        &[0, 1, 0, 1],
        &[1, 2, 0, 2, 0, 0, 1, 1, 0, 3, 0, 1, 1, 0],
        &[0, 3, 0, 1, 0, 1],
    ]
    .concat();
    // Two events and no word. The last place refuses event 0, the first event 1; the place
    // between refuses both, and is not named.
    let turned = [
        2, 0, 3, 0, 0, 0, 0, 0, 0, 0, 0, 5, 0, 1, 0, 0, 0, 0, 0, 7, 0, 7, 0, 0, 0, 0, 0, 0, 0, 1,
        0, 0, 0, 0, 2, 0, 0,
    ];
    let turned_pruned = [
        2, 0, 2, 0, 0, 0, 0, 0, 0, 0, 0, 5, 0, 0, 0, 0, 0, 0, 0, 1, 0, 0, 0, 0, 1, 0, 0,
    ];
    // One event, the word 0 and an empty one. All three places could be named, and two are.
    let some_named = [
        1, 2, 1, 0, 0, 3, 1, 0, 0, 0, 1, 0, 3, 0, 0, 0, 3, 0, 2, 0, 0, 0, 2, 0, 0, 2,
    ];
    let some_named_pruned = [1, 2, 1, 0, 0, 1, 2, 0, 0, 0, 2, 0, 0, 0];
    for (bundle, expected) in [
        (SAMPLE_A.as_slice(), SAMPLE_A.as_slice()),
        (&SAMPLE_E, &SAMPLE_E),
        (&a_with_idle, &SAMPLE_A),
        (&WITH_IDLE, &WITHOUT_IDLE),
        (&turned, &turned_pruned),
        (&some_named, &some_named_pruned),
    ] {
        let outcome = prune(&mut run, bundle);
        assert_eq!(outcome.as_deref(), Ok(expected), "{bundle:?}, {run}");
    }
    run.finish(&[(0, 48), (3, 24), (5, 72)]);
}

/// A bundle of which every place is named, and places added that are not: the result is the
/// bundle without them.
#[test]
fn idle_places() {
    let mut run = Run::start("idle_places");
    for idle in Idle::ALL {
        for _ in 0..run.cases(30) {
            let mut certified = small_certified(&mut run.rng);
            certified.bundle = pruned(&certified.bundle);
            let without = certified.bundle.bytes();
            let count = run.rng.choose(&[0, 1, 1, 2, 5, 64]);
            idle.add(&mut run.rng, &mut certified, count);
            if !certified.bundle.has_allowed_length() {
                continue;
            }
            let outcome = prune(&mut run, &certified.bundle.bytes());
            assert_eq!(outcome, Ok(without), "{idle:?}, {count}, {run}");

            run.note(match idle_count(&certified.bundle) {
                0 => "none idle",
                _ => "some idle",
            });
            if certified.bundle.places.len() == 64 {
                run.note("64 places");
            }
            if certified.counts.by_weights > 0 {
                run.note("certificates of kind 1");
            }
        }
    }
    run.finish_with_classes(
        &[(0, 1_100), (3, 550), (5, 1_650)],
        &[
            ("none idle", 5),
            ("some idle", 90),
            ("64 places", 5),
            ("certificates of kind 1", 5),
        ],
    );
}

/// Bundles as the generator makes them, whose certificates name any place that refuses.
#[test]
fn any_places() {
    let mut run = Run::start("any_places");
    for _ in 0..run.cases(150) {
        let Certified { bundle, .. } = small_certified(&mut run.rng);
        let outcome = prune(&mut run, &bundle.bytes());
        assert_eq!(outcome, Ok(pruned(&bundle).bytes()), "{run}");
        if idle_count(&bundle) > 0 {
            run.note("some idle");
        }
    }
    run.finish_with_classes(&[(0, 1_200), (3, 600), (5, 1_800)], &[("some idle", 20)]);
}

/// Every refusal of the judge, of bundles with idle places too. It comes before 3, and
/// neither the refused bundle nor anything else is written.
#[test]
fn refused_bundles() {
    let mut run = Run::start("prune::refused_bundles");
    for (bundle, outcome) in one_for_each_answer() {
        let Err(expected) = outcome else { continue };
        if !bundle.is_empty() {
            assert_eq!(prune(&mut run, &bundle), Err(expected), "{run}");
        }
    }
    for fault in BundleFault::ALL {
        for _ in 0..run.cases(4) {
            let mut certified = small_certified(&mut run.rng);
            let idle = run.rng.choose(&Idle::ALL);
            idle.add(&mut run.rng, &mut certified, 2);
            if let Some((bundle, refused)) = fault.bytes(&mut run.rng, &certified) {
                assert_eq!(prune(&mut run, &bundle), Err(refused), "{fault:?}, {run}");
            }
        }
    }
    let bundle_order = [6, 7, 8, 9, 10, 11, 12, 13].map(|number| (number, 12));
    run.finish(&[vec![(5, 100)], bundle_order.to_vec()].concat());
}

/// Up to four changes at once. The definitions say which fault comes first, and what is
/// still accepted.
#[test]
fn several_faults() {
    let mut run = Run::start("prune::several_faults");
    for _ in 0..run.cases(150) {
        let mut certified = small_certified(&mut run.rng);
        Idle::Anywhere.add(&mut run.rng, &mut certified, 2);
        for _ in 0..4 {
            let bytes = altered(&mut run.rng, &certified.bundle);
            prune(&mut run, &bytes).ok();
        }
    }
    run.finish(&[
        (0, 100),
        (3, 50),
        (5, 5_000),
        (6, 400),
        (7, 600),
        (10, 100),
        (11, 100),
        (13, 100),
    ]);
}

/// A bundle of no byte or of too many: 4 comes before 5 and 3, and leaves both buffers as
/// they were.
#[test]
fn bundle_lengths() {
    let mut run = Run::start("prune::bundle_lengths");
    let largest = [SAMPLE_A.as_slice(), &vec![0; MAX_BUNDLE_SIZE - 52]].concat();
    for bundle in [&[], largest.as_slice()] {
        for output_len in output_lengths(&mut run.rng, bundle.len()) {
            for table_len in TABLE_LENGTHS {
                let noise: Vec<u16> = run.rng.items(table_len);
                let done = run.prune(bundle, output_len, &noise);
                assert_eq!(done.outcome, refusal(4, 0), "{run}");
                assert!(done.table == noise, "another table: {run}");
            }
        }
    }
    // One byte less: its other bytes follow.
    let outcome = prune(&mut run, &largest[..MAX_BUNDLE_SIZE]);
    assert_eq!(outcome, refusal(13, 53), "{run}");
    run.finish(&[(4, 48), (5, 12), (13, 12)]);
}

/// Whatever the table held before, also the rows of the same log or of another: it is left
/// as judging leaves it, be there a result, 3 or a refusal of the judge.
#[test]
fn table_contents() {
    let mut run = Run::start("prune::table_contents");
    for _ in 0..run.cases(60) {
        let mut certified = small_certified(&mut run.rng);
        Idle::Anywhere.add(&mut run.rng, &mut certified, 1);
        let bundle = certified.bundle.bytes();
        let cut = &bundle[..run.rng.within(1..=bundle.len() - 1)];
        let (outcome, _) = prune_by_definitions(&bundle);
        let needed = outcome.expect("accepted").len();
        let (n, words) = small_log(&mut run.rng);
        for table in [
            vec![0; TABLE],
            vec![65_535; TABLE + 1],
            table_of(certified.bundle.n, &certified.bundle.words),
            table_of(n, &words),
        ] {
            for (bundle, output_len, number) in [
                (bundle.as_slice(), needed, 0),
                (&bundle, needed - 1, 3),
                (cut, needed, 6),
            ] {
                let done = run.prune(bundle, output_len, &table);
                let answered = done.outcome.map_or_else(|refused| refused.number, |_| 0);
                assert_eq!(answered, number, "{run}");
                let judged = run.judge(bundle, &table);
                assert!(done.table == judged.table, "another table: {run}");
            }
        }
    }
    run.finish(&[(0, 240), (3, 240), (6, 240)]);
}
