//! Every value of each field, every altered byte, and sums in steps of one; every
//! pair of short words, and every event.

use differential::files::{
    broken_rule, build, refused_block, write_sums, Field, BLOCK, CONTENTS, MODULUS,
};
use differential::logs::{table_of, MAX_EVENTS, TABLE};
use differential::run::{refusal, Run};
use reference::{log_rows, Refusal, Summary};

/// Every value of each two-byte field of a file of one block. The sums are made
/// right again where number or used count is altered.
#[test]
fn every_value_of_each_field() {
    let mut run = Run::start("every_value_of_each_field");
    for field in Field::ALL {
        // Zeros, so that every used count leaves unused contents zero.
        let filling = if field == Field::Used { 0 } else { 7 };
        let sound = build(&[filling; CONTENTS]);
        let right = field.read(&sound);
        for value in 0..=65_535 {
            let mut file = sound.clone();
            field.write(&mut file, value);
            if matches!(field, Field::Number | Field::Used) {
                write_sums(&mut file);
            }
            let expected = match field {
                Field::Used if (1..=CONTENTS).contains(&value) => Ok(value),
                Field::Used => refusal(18, 0),
                _ if value == right => Ok(CONTENTS),
                Field::Number => refusal(17, 0),
                Field::PlainSum | Field::WeightedSum => refusal(2, 0),
            };
            let done = run.open(&file, CONTENTS);
            assert_eq!(done.outcome, expected, "{field:?} = {value}, {run}");
        }
    }
    run.finish(&[(0, 3 + 504), (17, 65_535), (18, 65_032), (2, 2 * 65_535)]);
}

/// The number for a file of two blocks, the last used up to 100, with this byte
/// altered. Another used count in the last block can be one that it may have; then it
/// depends on what is no longer used.
fn number_with_altered(file: &[u8], byte: usize) -> u8 {
    let (block, at) = (byte / BLOCK, byte % BLOCK);
    match at {
        0..=1 => 17,
        2..=3 if block == 0 => 18,
        2..=3 => broken_rule(file, block).expect("its sums are wrong"),
        104..=507 if block == 1 => 18,
        _ => 2,
    }
}

/// Every other value of every byte of a file of two blocks.
#[test]
fn every_altered_byte() {
    let mut run = Run::start("every_altered_byte");
    let mut file = build(&run.rng.bytes(CONTENTS + 100));
    for byte in 0..file.len() {
        for change in 1..=255 {
            file[byte] ^= change;
            let number = number_with_altered(&file, byte);
            let spot = byte / BLOCK;
            let refused = Refusal { number, spot };
            let place = format!("byte {byte}, change {change}, {run}");
            assert_eq!(refused_block(&file), Some(refused), "{place}");
            let done = run.open(&file, 2 * CONTENTS);
            assert_eq!(done.outcome, Err(refused), "{place}");
            file[byte] ^= change;
        }
    }
    // Of block 0 its used count, of block 1 the 404 bytes that are not used.
    let contents = (2 + 404) * 255;
    run.finish(&[(17, 4 * 255), (18, contents), (2, (1_024 - 8 - 404) * 255)]);
}

/// Seals and opens bundles of one block whose sum goes up by one, from below the
/// modulus to above it.
fn sum_in_steps(run: &mut Run, sum: Field, bundles: impl Iterator<Item = Vec<u8>>) {
    let mut before = None;
    let mut passed_modulus = false;
    for bundle in bundles {
        let file = build(&bundle);
        let sealed = run.seal(&bundle, BLOCK);
        assert_eq!(sealed.outcome, Ok(BLOCK), "{run}");
        assert!(sealed.output == file, "another file: {run}");
        let opened = run.open(&file, CONTENTS);
        assert_eq!(opened.outcome, Ok(CONTENTS), "{run}");
        assert!(opened.output == bundle, "another bundle: {run}");

        let now = sum.read(&file);
        if let Some(before) = before {
            assert_eq!(now, (before + 1) % MODULUS, "{run}");
        }
        passed_modulus |= now == 0;
        before = Some(now);
    }
    assert!(passed_modulus, "{sum:?}, {run}");
}

#[test]
fn sums_in_steps_over_the_modulus() {
    let mut run = Run::start("sums_in_steps_over_the_modulus");
    // More and more bytes 130, the rest 129: from 249 + 504 × 129 = 65,265 on.
    let plain = (0..=CONTENTS).map(|more| {
        let mut bundle = vec![129; CONTENTS];
        bundle[..more].fill(130);
        bundle
    });
    sum_in_steps(&mut run, Field::PlainSum, plain);
    // A byte 1 moves on, and the last byte is 127: from 748 + 5 + 127 × 508 =
    // 65,269 on.
    let weighted = (0..CONTENTS - 1).map(|position| {
        let mut bundle = vec![0; CONTENTS];
        bundle[position] = 1;
        bundle[CONTENTS - 1] = 127;
        bundle
    });
    sum_in_steps(&mut run, Field::WeightedSum, weighted);
    run.finish(&[(0, 2 * 505 + 2 * 503)]);
}

/// All words of up to three of three events.
fn short_words() -> Vec<Vec<u8>> {
    let mut words = vec![Vec::new()];
    for start in 0.. {
        let word: Vec<u8> = match words.get(start) {
            Some(word) if word.len() < 3 => word.clone(),
            _ => return words,
        };
        words.extend((0..3).map(|event| [word.as_slice(), &[event]].concat()));
    }
    words
}

/// Every log of two words of up to three of three events.
#[test]
fn every_pair_of_short_words() {
    let mut run = Run::start("every_pair_of_short_words");
    let words = short_words();
    let noise: Vec<u16> = run.rng.items(TABLE);
    for first in &words {
        for second in &words {
            let log = [first.clone(), second.clone()];
            let mut taken = run.fresh(3, &noise);
            for word in &log {
                let summary = taken.outcome.expect("few rows and events");
                taken = run.take(summary, word, &taken.table);
            }
            let summary = Summary {
                n: 3,
                rows: log_rows(3, &log).len(),
                events: first.len() + second.len(),
            };
            assert_eq!(taken.outcome, Ok(summary), "{log:?}, {run}");
            assert!(taken.table == table_of(3, &log), "{log:?}, {run}");
        }
    }
    // 1 + 3 + 9 + 27 = 40 words, and three calls for each pair.
    run.finish(&[(0, 40 * 40 * 3)]);
}

/// Every event count with every byte, at every position of a word of three.
#[test]
fn every_event() {
    let mut run = Run::start("every_event");
    for n in 1..=MAX_EVENTS {
        let fresh = run.fresh(n, &[9; TABLE]);
        let summary = fresh.outcome.expect("an allowed event count");
        for event in 0..=255 {
            for position in 0..3 {
                let mut word = [0; 3];
                word[position] = event;
                let expected = if usize::from(event) < n {
                    Ok(Summary {
                        n,
                        rows: 4,
                        events: 3,
                    })
                } else {
                    refusal(7, position)
                };
                let taken = run.take(summary, &word, &fresh.table);
                assert_eq!(taken.outcome, expected, "{word:?}, n = {n}, {run}");
            }
        }
    }
    // 1 + 2 + … + 12 = 78 right events.
    run.finish(&[(0, 12 + 3 * 78), (7, 3 * (12 * 256 - 78))]);
}
