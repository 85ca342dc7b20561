//! Replacing a net: guards around both bundles, the tokens, the kept events and the answer, at
//! every alignment.

use differential::bundles::{five_long_words, SAMPLE_A, SAMPLE_E, SAMPLE_F, SAMPLE_NEW};
use differential::guarded::carried::{at_every_alignment, Call, Case, Lent};
use differential::run::Run;
use differential::screening::ONE_FOLLOWS;

/// A replacement that is refused so, or with 0 leaves these tokens in front.
fn replace(
    [old, new]: [&[u8]; 2],
    tokens: &[u64],
    (kept, number): (&[u8], usize),
    (returned, spot): (u32, u64),
    left: &[u64],
) -> Case {
    Case {
        call: Call::Replace(number),
        lent: Lent {
            bundle: old.to_vec(),
            new: new.to_vec(),
            tokens: tokens.to_vec(),
            kept: kept.to_vec(),
        },
        number: returned,
        answered: if returned == 0 { vec![] } else { vec![spot] },
        left: left.to_vec(),
    }
}

/// No event, few, and as many as there can be; bytes behind them, and numbers behind those of
/// the places.
fn results() -> Vec<Case> {
    let (a, one): (&[u8], &[u8]) = (&SAMPLE_A, &ONE_FOLLOWS);
    let gaining = [1, 0, 1, 255, 255, 255, 255, 0, 0];
    // 64 places that permit everything.
    let many = [vec![1, 0, 64], vec![0; 64 * 6]].concat();
    let (zeros, done) = ([0; 65_536], (0, 0));
    vec![
        replace([one, a], &[8, 9], (&[], 0), done, &[1, 2]),
        replace([one, a], &[8, 9, u64::MAX], (&[0, 1, 9], 2), done, &[0, 1]),
        replace([a, one], &[8, 9], (&[0, 0, 1], 3), done, &[1]),
        replace([a, a], &[8; 66], (&[255], 0), done, &[1, 2]),
        replace([&SAMPLE_E, &SAMPLE_F], &[], (&[0; 5], 5), done, &[]),
        replace([&SAMPLE_F, &many], &[1; 64], (&[0; 9], 9), done, &[0; 64]),
        replace(
            [&SAMPLE_F, &gaining],
            &[8, 9],
            (&zeros, 65_535),
            done,
            &[4_294_901_760],
        ),
    ]
}

fn refusals() -> Vec<Case> {
    let (a, one): (&[u8], &[u8]) = (&SAMPLE_A, &ONE_FOLLOWS);
    let five_words = five_long_words(1);
    let (cut, zero, two) = (&a[..28], [0, 0, 0], [8, 9]);
    let kept = (&[0, 1][..], 2);
    let none = &[];
    vec![
        replace([a, one], &two, (&[0, 1], 65_536), (14, 65_535), none),
        replace([a, one], &two, (&[0, 1], 3), (3, 3), none),
        replace([a, one], &two, (&[], 65_535), (3, 65_535), none),
        replace([&[], one], &two, kept, (4, 0), none),
        replace([a, &[]], &two, kept, (4, 0), none),
        replace([cut, one], &two, kept, (6, 27), none),
        replace([a, &one[..12]], &two, kept, (6, 11), none),
        replace([&zero, one], &two, kept, (7, 0), none),
        replace([a, &zero], &two, kept, (7, 0), none),
        replace([&five_words, one], &two, kept, (8, 2 + 4 * 256), none),
        replace([a, &five_words], &two, kept, (8, 2 + 4 * 256), none),
        replace([a, &SAMPLE_NEW], &two, kept, (22, 0), none),
        replace([one, a], &[8], kept, (5, 2), none),
        replace([one, a], &[], kept, (5, 2), none),
        replace([one, a], &two, (&[1, 1, 2], 3), (15, 2), none),
        replace([a, one], &two, (&[1, 0], 2), (23, 0), none),
        replace([a, one], &[8; 66], (&[0, 1, 1, 2], 3), (23, 2), none),
    ]
}

/// Nothing changes but what the answer allows, whatever else it held.
#[test]
fn guards_stay_as_they_were() {
    let mut run = Run::start("replace_guards");
    let cases = [results(), refusals()].concat();
    let times = at_every_alignment(&mut run, &cases);
    let of_bundles = [4, 6, 7, 8].map(|number| (number, 2 * times));
    let others = [
        (0, 7 * times),
        (14, times),
        (3, 2 * times),
        (22, times),
        (5, 2 * times),
        (15, times),
        (23, 2 * times),
    ];
    run.finish(&[of_bundles.as_slice(), &others].concat());
}

/// The library only reads the bundles and the kept events, which may be the same memory: here
/// the kept events are the bytes of the one bundle from some offset on.
#[test]
fn inputs_that_overlap() {
    let mut run = Run::start("inputs_that_overlap");
    let bundle = SAMPLE_A.as_slice();
    for (offset, number, expected) in [
        (0, 0, Ok([1, 2, 10])),
        // Its first word, and its second one.
        (3, 1, Ok([0, 2, 10])),
        (5, 3, Ok([0, 0, 10])),
        (6, 2, Ok([0, 1, 10])),
        (5, 4, Err((15, 3))),
        (6, 3, Err((15, 2))),
        (0, 53, Err((15, 0))),
        (0, 54, Err((3, 54))),
    ] {
        let mut tokens = [8, 9, 10];
        let kept = &bundle[offset..];
        let result = hovmekhar::replace(bundle, bundle, &mut tokens, kept, number);
        let refused = result.map_err(|refusal| (refusal.number, refusal.spot));
        assert_eq!(refused.map(|()| tokens), expected, "{run}");
        run.count(expected.map_or_else(|(number, _)| number, |_| 0));
    }
    run.finish(&[(0, 4), (15, 3), (3, 1)]);
}
