//! Guards around every lent buffer, at every alignment.

use differential::bundles::{five_long_words, one_for_each_answer, SAMPLE_A, SAMPLE_F};
use differential::files::{build, bundle_length, BLOCK, CONTENTS};
use differential::guarded::{Guarded, ReadOnly};
use differential::logs::TABLE;
use differential::rng::Item;
use differential::run::Run;
use differential::screening::MAX_WORD_EVENTS;
use hovmekhar::ffi;

/// Alignments to try: all within a cache line, more than any load asks for.
const ALIGNMENTS: usize = 64;

/// A call with an input and an output, or a word and a table.
type Call<T> = Box<dyn Fn(&[u8], &mut [T], &mut ffi::Answer) -> u32>;

/// A call, and what has to come of it.
struct Case<'a, T> {
    call: Call<T>,
    input: &'a [u8],
    output: &'a [T],
    number: u8,
    answered: usize,
    written: usize,
}

/// Makes the call with guards of these lengths before input and output, and
/// checks that nothing changed but the items to be written and the numbers to be
/// answered.
fn call_between_guards<T: Item>(
    run: &mut Run,
    case: &Case<T>,
    input_front: usize,
    output_front: usize,
) {
    let rng = &mut run.rng;
    let input = Guarded::new(&rng.bytes(input_front), case.input, &rng.bytes(100));
    let mut output = Guarded::new(&rng.items(output_front), case.output, &rng.items(100));
    let mut answer = Guarded::new(
        &rng.numbers::<4>(),
        &rng.numbers::<4>(),
        &rng.numbers::<4>(),
    );
    let four: &mut ffi::Answer = answer.lent_mut().try_into().expect("four numbers");
    run.count(case.number);
    let number = (case.call)(input.lent(), output.lent_mut(), four);

    let place = format!("input after {input_front}, output after {output_front}, {run}");
    assert_eq!(number, u32::from(case.number), "{place}");
    assert!(input.kept_beyond(0), "input or its guards: {place}");
    assert!(
        output.kept_beyond(case.written),
        "output or its guards: {place}"
    );
    assert!(
        answer.kept_beyond(case.answered),
        "answer or its guards: {place}"
    );
}

/// One call for each answer that opening and sealing have, and outputs longer
/// than the result. The faulty files have another number, contents or sums. The noise
/// is longer than any output.
fn block_cases<'a>(
    bundle: &'a [u8],
    file: &'a [u8],
    faulty: &'a [Vec<u8>; 3],
    noise: &'a [u8],
) -> [Case<'a, u8>; 12] {
    let open = |input, output_len, number, written| Case {
        call: Box::new(ffi::open),
        input,
        output: &noise[..output_len],
        number,
        answered: 1,
        written,
    };
    let seal = |input, output_len, number, written| Case {
        call: Box::new(ffi::seal),
        input,
        output: &noise[..output_len],
        number,
        answered: 1,
        written,
    };
    [
        open(file, bundle.len(), 0, bundle.len()),
        open(file, bundle.len() + 9, 0, bundle.len()),
        open(&file[1..], bundle.len(), 1, 0),
        open(&faulty[0], bundle.len(), 17, 0),
        open(&faulty[1], bundle.len(), 18, 0),
        open(&faulty[2], bundle.len(), 2, 0),
        open(file, bundle.len() - 1, 3, 0),
        open(file, 0, 3, 0),
        seal(bundle, file.len(), 0, file.len()),
        seal(bundle, file.len() + 9, 0, file.len()),
        seal(bundle, file.len() - 1, 3, 0),
        seal(&[], file.len(), 4, 0),
    ]
}

#[test]
fn guards_of_files_stay_as_they_were() {
    let mut run = Run::start("guards_of_files_stay_as_they_were");
    for alignment in 0..ALIGNMENTS {
        for blocks in [1, 2, 5] {
            let last = run.rng.within(1..=CONTENTS);
            let bundle = run.rng.bytes(bundle_length(blocks, last));
            let file = build(&bundle);
            let faulty = [0, 3, 4].map(|byte| {
                let mut faulty = file.clone();
                faulty[(blocks - 1) * BLOCK + byte] ^= 2;
                faulty
            });
            let noise = run.rng.bytes(file.len() + 9);

            for case in block_cases(&bundle, &file, &faulty, &noise) {
                let this = ALIGNMENTS + alignment;
                let other = ALIGNMENTS + run.rng.below(ALIGNMENTS);
                call_between_guards(&mut run, &case, this, other);
                call_between_guards(&mut run, &case, other, this);
            }
        }
    }
    // For each of 64 alignments 3 sizes, each of the 12 cases twice.
    let blocks = [(17, 384), (18, 384), (2, 384)];
    let others = [(0, 1_536), (1, 384), (3, 1_152), (4, 384)];
    run.finish(&[blocks.as_slice(), &others].concat());
}

/// One call for each answer that the calls on a log table have, and tables longer
/// than needed. The noise is longer than any table; no row of it has the counts
/// of a short prefix, so a word needs one row more than it has events.
fn table_cases(noise: &[u16]) -> [Case<'_, u16>; 12] {
    let case = |call, input, length, number| Case {
        call,
        input,
        output: &noise[..length],
        number,
        answered: if number == 0 { 3 } else { 1 },
        written: if number == 0 { TABLE } else { 0 },
    };
    let fresh = |n, length, number| {
        let call: Call<u16> = Box::new(move |_, table, answer| ffi::fresh(n, table, answer));
        case(call, &[], length, number)
    };
    let take = |rows, events, word, length, number| {
        let call: Call<u16> =
            Box::new(move |word, table, answer| ffi::take(2, rows, events, word, table, answer));
        case(call, word, length, number)
    };
    [
        fresh(2, TABLE, 0),
        fresh(2, TABLE + 9, 0),
        fresh(2, TABLE - 1, 5),
        fresh(2, 0, 5),
        fresh(0, TABLE, 16),
        take(250, 1_019, &[0, 1, 1, 0, 1], TABLE, 0),
        take(1, 0, &[0, 1, 1, 0, 1], TABLE + 9, 0),
        take(1, 0, &[0, 1], TABLE - 1, 5),
        take(1, 0, &[0, 1, 2], TABLE, 7),
        take(1, 1_019, &[0, 1, 0, 1, 0, 1], TABLE, 8),
        take(251, 0, &[0, 1, 0, 1, 0], TABLE, 9),
        take(0, 0, &[0, 1], TABLE, 16),
    ]
}

#[test]
fn guards_of_tables_stay_as_they_were() {
    let mut run = Run::start("guards_of_tables_stay_as_they_were");
    for alignment in 0..ALIGNMENTS {
        let noise: Vec<u16> = run.rng.items(TABLE + 9);
        for case in table_cases(&noise) {
            let this = ALIGNMENTS + alignment;
            let other = ALIGNMENTS + run.rng.below(ALIGNMENTS);
            call_between_guards(&mut run, &case, this, other);
            call_between_guards(&mut run, &case, other, this);
        }
    }
    // For each of 64 alignments each of the 12 cases twice.
    run.finish(&[(0, 512), (5, 384), (7, 128), (8, 128), (9, 128), (16, 256)]);
}

/// Each bundle with tables that are long enough, longer and too short. The noise
/// is longer than any table.
fn judge_cases<'a>(noise: &'a [u16], bundle: &'a [u8], number: u8) -> [Case<'a, u16>; 4] {
    let case = |length, number| Case {
        call: Box::new(ffi::judge),
        input: bundle,
        output: &noise[..length],
        number,
        answered: if number == 0 { 4 } else { 1 },
        written: if [4, 5].contains(&number) { 0 } else { TABLE },
    };
    let with_short_table = if number == 4 { 4 } else { 5 };
    [
        case(TABLE, number),
        case(TABLE + 9, number),
        case(TABLE - 1, with_short_table),
        case(0, with_short_table),
    ]
}

#[test]
fn guards_of_judging_stay_as_they_were() {
    let mut run = Run::start("guards_of_judging_stay_as_they_were");
    for alignment in 0..ALIGNMENTS {
        let noise: Vec<u16> = run.rng.items(TABLE + 9);
        for (bundle, outcome) in one_for_each_answer() {
            let number = outcome.map_or_else(|refused| refused.number, |_| 0);
            for case in judge_cases(&noise, &bundle, number) {
                let this = ALIGNMENTS + alignment;
                let other = ALIGNMENTS + run.rng.below(ALIGNMENTS);
                call_between_guards(&mut run, &case, this, other);
                call_between_guards(&mut run, &case, other, this);
            }
        }
    }
    // For each of 64 alignments each of the 10 bundles with 4 tables, all twice.
    run.finish(&[
        (0, 256),
        (4, 512),
        (5, 2_304),
        (6, 256),
        (7, 256),
        (8, 256),
        (9, 256),
        (10, 256),
        (11, 256),
        (12, 256),
        (13, 256),
    ]);
}

/// One for each answer that screening has, and one with the largest shortfall.
fn screenings() -> [ReadOnly<2>; 10] {
    let case = |bundle: &[u8], word: &[u8], number, answered: &[u64]| ReadOnly {
        inputs: [bundle.to_vec(), word.to_vec()],
        number,
        answered: answered.to_vec(),
    };
    let takes_most = [1, 0, 1, 0, 0, 0, 0, 255, 255];
    [
        case(&SAMPLE_A, &[0, 1], 0, &[]),
        case(&SAMPLE_F, &[], 0, &[]),
        case(&SAMPLE_A, &[1, 0], ffi::STOPPED, &[1, 0, 1]),
        case(&takes_most, &[0], ffi::STOPPED, &[0, 0, 65_535]),
        case(&[], &[1, 0], 4, &[0]),
        case(&SAMPLE_A[..28], &[1, 0], 6, &[27]),
        case(&[0, 0, 0], &[1, 0], 7, &[0]),
        case(&five_long_words(1), &[1, 0], 8, &[2 + 4 * 256]),
        case(&SAMPLE_A, &[0; MAX_WORD_EVENTS + 1], 14, &[65_535]),
        case(&SAMPLE_A, &[1, 0, 2], 15, &[2]),
    ]
}

#[test]
fn guards_of_screening_stay_as_they_were() {
    let mut run = Run::start("guards_of_screening_stay_as_they_were");
    let cases = screenings();
    for alignment in 0..ALIGNMENTS {
        for case in &cases {
            let this = ALIGNMENTS + alignment;
            let other = ALIGNMENTS + run.rng.below(ALIGNMENTS);
            for fronts in [[this, other], [other, this]] {
                case.between_guards(&mut run, fronts, |[bundle, word], answer| {
                    ffi::screen(bundle, word, answer)
                });
            }
        }
    }
    // For each of 64 alignments each of the 10 cases twice.
    run.finish(&[
        (0, 512),
        (4, 128),
        (6, 128),
        (7, 128),
        (8, 128),
        (14, 128),
        (15, 128),
    ]);
}
