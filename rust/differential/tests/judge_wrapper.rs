//! The safe calls for judging, pruning and conversion: results and errors, against the
//! reference.

use differential::bundle_faults::BundleFault;
use differential::bundles::{one_for_each_answer, SAMPLE_A, SAMPLE_NEW};
use differential::editions::in_new;
use differential::faults::{BlockFault, LengthFault};
use differential::files::{build, MAX_BUNDLE_SIZE};
use differential::limits::{LARGEST, LARGEST_FITTING};
use differential::logs::TABLE;
use differential::nets::small_certified;
use differential::pruning::Idle;
use differential::rewriting::Rewrite;
use differential::rng::Rng;
use differential::run::{output_lengths, Outcome, Run};
use hovmekhar::{Judged, Refusal, Tally, ROW_SIZE, TABLE_SIZE};
use std::error::Error;
use std::fmt::Debug;

/// A result of the safe calls, with its refusal in the reference's terms.
fn refused<R>(result: Result<R, Refusal>) -> Outcome<R> {
    result.map_err(|Refusal { number, spot }| reference::Refusal { number, spot })
}

/// A result of the safe calls in the reference's terms.
fn outcome(result: Result<Tally, Refusal>) -> Outcome<reference::Tally> {
    let Tally {
        rows,
        allowed,
        by_place,
        by_weights,
    } = refused(result)?;
    Ok(reference::Tally {
        rows,
        allowed,
        by_place,
        by_weights,
    })
}

/// A bundle of any kind: one in four is accepted, half of these with an idle place more.
fn any_bundle(run: &mut Run) -> Vec<u8> {
    let mut certified = small_certified(&mut run.rng);
    let idle = run.rng.below(2);
    Idle::Anywhere.add(&mut run.rng, &mut certified, idle);
    let fault = run.rng.choose(&BundleFault::ALL);
    match run.rng.below(8) {
        0 | 1 => certified.bundle.bytes(),
        2 => {
            let length = run.rng.choose(&[0, MAX_BUNDLE_SIZE + 1]);
            run.rng.bytes(length)
        }
        _ => match fault.bytes(&mut run.rng, &certified) {
            Some((bytes, _)) => bytes,
            None => any_bundle(run),
        },
    }
}

#[test]
fn judge_agrees() {
    let mut run = Run::start("judge_agrees");
    for _ in 0..run.cases(1_000) {
        let bundle = any_bundle(&mut run);
        let any = run.rng.below(2 * TABLE);
        let length = run.rng.choose(&[TABLE, TABLE + 1, TABLE + 500, any]);
        let mut table: Vec<u16> = run.rng.items(length);
        let judged = run.judge(&bundle, &table);

        let result = hovmekhar::judge(&bundle, &mut table);
        assert_eq!(outcome(result), judged.outcome, "{run}");
        assert!(table == judged.table, "{run}");
    }
    run.finish(&[(0, 100), (4, 50), (5, 40), (6, 1), (7, 60), (11, 5)]);
}

/// The call that returns the rows never lacks room, so it agrees with a call on a
/// table that is long enough.
#[test]
fn vectors_agree() {
    let mut run = Run::start("judge_wrapper::vectors_agree");
    for _ in 0..run.cases(1_000) {
        let bundle = any_bundle(&mut run);
        let noise: Vec<u16> = run.rng.items(TABLE);
        let judged = run.judge(&bundle, &noise);

        let result = hovmekhar::judge_vec(&bundle);
        if let Ok((counts, rows)) = &result {
            assert_eq!(rows.len(), counts.rows * ROW_SIZE, "{run}");
            assert!(judged.table[..rows.len()] == *rows, "{run}");
        }
        let result = outcome(result.map(|(counts, _)| counts));
        assert_eq!(result, judged.outcome, "{run}");
    }
    run.finish(&[(0, 100), (4, 50), (6, 1), (7, 60), (11, 5)]);
}

/// A file of any kind: at least one in four does not open.
fn any_file(run: &mut Run) -> Vec<u8> {
    match run.rng.below(8) {
        0 => LengthFault::OneByteMore.file(&mut run.rng),
        1 => run.rng.choose(&BlockFault::ALL).file(&mut run.rng).0,
        _ => build(&any_bundle(run)),
    }
}

/// A sealed file opened and judged: the refusal of either call, or the bundle, the counts
/// and the rows.
#[test]
fn files_agree() {
    let mut run = Run::start("judge_wrapper::files_agree");
    for _ in 0..run.cases(1_000) {
        let file = any_file(&mut run);
        let opened = run.open(&file, MAX_BUNDLE_SIZE);
        let result = hovmekhar::judge_file_vec(&file);
        let length = match opened.outcome {
            Ok(length) => length,
            Err(refusal) => {
                assert_eq!(refused(result), Err(refusal), "{run}");
                continue;
            }
        };
        let bundle = &opened.output[..length];
        let noise: Vec<u16> = run.rng.items(TABLE);
        let judged = run.judge(bundle, &noise);
        if let Ok(Judged {
            bundle: given,
            tally,
            rows,
        }) = &result
        {
            assert!(given == bundle, "{run}");
            assert_eq!(rows.len(), tally.rows * ROW_SIZE, "{run}");
            assert!(judged.table[..rows.len()] == *rows, "{run}");
        }
        let result = outcome(result.map(|judged| judged.tally));
        assert_eq!(result, judged.outcome, "{run}");
    }
    // Each file that is opened, and each bundle that is accepted.
    run.finish(&[(0, 500 + 80), (1, 80), (17, 10), (18, 6), (2, 20), (7, 40)]);
}

/// A safe call that writes a bundle anew into lent buffers.
type Lent = fn(&[u8], &mut [u8], &mut [u16]) -> Result<usize, Refusal>;

/// The safe calls that write a bundle anew: into lent buffers, and into one of their own.
struct Safe {
    call: Rewrite,
    lent: Lent,
    owned: fn(&[u8]) -> Result<Vec<u8>, Refusal>,
}

const SAFE: [Safe; 3] = [
    Safe {
        call: Rewrite::Prune,
        lent: hovmekhar::prune,
        owned: hovmekhar::prune_vec,
    },
    Safe {
        call: Rewrite::ToNew,
        lent: hovmekhar::to_new,
        owned: hovmekhar::to_new_vec,
    },
    Safe {
        call: Rewrite::ToOld,
        lent: hovmekhar::to_old,
        owned: hovmekhar::to_old_vec,
    },
];

/// Into lent buffers of any length, and by the call that never lacks room.
fn agrees(run: &mut Run, safe: &Safe) {
    let bundle = any_bundle(run);
    let lengths = output_lengths(&mut run.rng, bundle.len());
    let output_len = run.rng.choose(&lengths);
    let any = run.rng.below(2 * TABLE);
    let length = run.rng.choose(&[TABLE, TABLE + 1, TABLE + 500, any]);
    let mut table: Vec<u16> = run.rng.items(length);
    let done = run.rewrite(safe.call, &bundle, output_len, &table);

    let mut output = vec![9; output_len];
    let result = (safe.lent)(&bundle, &mut output, &mut table);
    assert_eq!(refused(result), done.outcome, "{run}");
    assert!(table == done.table, "{run}");
    let (front, rest) = output.split_at(result.unwrap_or(0));
    assert!(front == &done.output[..front.len()], "{run}");
    assert!(rest.iter().all(|&byte| byte == 9), "{run}");

    let result = (safe.owned)(&bundle);
    let has_allowed_length = (1..=MAX_BUNDLE_SIZE).contains(&bundle.len());
    let expected = match has_allowed_length {
        true => safe.call.by_definitions(&bundle).0,
        false => Err(reference::Refusal { number: 4, spot: 0 }),
    };
    assert_eq!(refused(result), expected, "{run}");
}

#[test]
fn prune_agrees() {
    let mut run = Run::start("prune_agrees");
    for _ in 0..run.cases(1_000) {
        agrees(&mut run, &SAFE[0]);
    }
    run.finish(&[(0, 60), (3, 20), (4, 50), (5, 40), (7, 60), (11, 5)]);
}

#[test]
fn conversions_agree() {
    let mut run = Run::start("conversions_agree");
    for _ in 0..run.cases(1_000) {
        for safe in &SAFE[1..] {
            agrees(&mut run, safe);
        }
    }
    let refused = [(4, 100), (5, 80), (7, 120), (11, 10), (21, 10)];
    run.finish(&[[(0, 120), (3, 40)].as_slice(), &refused].concat());
}

/// The call that returns a bundle of its own has room for the longest result.
#[test]
fn longest_result() {
    let mut run = Run::start("judge_wrapper::longest_result");
    let bundle = LARGEST_FITTING.certified(&mut run.rng).bundle;
    let old = bundle.bytes();
    let new = hovmekhar::to_new_vec(&old).expect("it fits");
    assert_eq!(Ok(&new), in_new(&bundle).as_ref(), "{run}");
    assert!(hovmekhar::to_old_vec(&new) == Ok(old), "{run}");
}

/// Each refusal that these calls can give is an error with its number, its spot and a
/// sentence with both.
#[test]
fn refusals_are_errors() {
    let mut table = [9; TABLE_SIZE];
    for (bundle, outcome) in one_for_each_answer() {
        if let Err(refused) = outcome {
            check_error(hovmekhar::judge(&bundle, &mut table), refused);
            check_error(hovmekhar::judge_vec(&bundle), refused);
            for Safe { lent, owned, .. } in SAFE {
                check_error(lent(&bundle, &mut [9; 66], &mut table), refused);
                check_error(owned(&bundle), refused);
            }
        }
    }
    let refusal = |number, spot| reference::Refusal { number, spot };
    let short = refusal(Refusal::NUMBERS_SHORT, 3_584);
    check_error(hovmekhar::judge(&SAMPLE_A, &mut table[1..]), short);
    for Safe { call, lent, .. } in SAFE {
        check_error(lent(&SAMPLE_A, &mut [9; 66], &mut table[1..]), short);
        let needed = if call == Rewrite::ToNew { 56 } else { 53 };
        let short = refusal(Refusal::OUTPUT_SHORT, needed);
        check_error(lent(&SAMPLE_A, &mut [9; 52], &mut table), short);
    }
    let completed = refusal(Refusal::WORD_COMPLETED, 0);
    let result = hovmekhar::to_old(&SAMPLE_NEW, &mut [9; 80], &mut table);
    check_error(result, completed);
    check_error(hovmekhar::to_old_vec(&SAMPLE_NEW), completed);
    let longest = LARGEST.certified(&mut Rng::new(0)).bundle.bytes();
    check_error(hovmekhar::to_new_vec(&longest), refusal(4, 0));
}

fn check_error<R: Debug>(result: Result<R, Refusal>, expected: reference::Refusal) {
    let reference::Refusal { number, spot } = expected;
    let refusal = result.expect_err("each of these is refused");
    assert_eq!(refusal, Refusal { number, spot });
    let error: Box<dyn Error> = Box::new(refusal);
    let sentence = error.to_string();
    assert!(
        sentence.starts_with(&format!("refusal {number}: ")),
        "{sentence}"
    );
    assert!(sentence.contains(&spot.to_string()), "{sentence}");
}
