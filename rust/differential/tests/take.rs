//! Taking a word with tables of any contents, summaries of any numbers and words
//! of any length.

use differential::logs::{
    counts_at, counts_of, mask_at, random_word, take_step_by_step, traffic_at, Contents,
    MAX_EVENTS, MAX_LOG_EVENTS, MAX_ROWS, ROW, TABLE, TRAFFIC, WRONG_EVENTS, WRONG_N, WRONG_ROWS,
};
use differential::run::{refusal, Outcome, Run};
use reference::Summary;

/// Takes a word and checks the answer. A refusal leaves the table as it was.
fn expect(
    run: &mut Run,
    summary: Summary,
    word: &[u8],
    table: &[u16],
    expected: Outcome<Summary>,
) -> Vec<u16> {
    let taken = run.take(summary, word, table);
    assert_eq!(taken.outcome, expected, "{summary:?}, {run}");
    if expected.is_err() {
        assert!(taken.table == table, "the table changed: {run}");
    }
    taken.table
}

/// A summary for a word of this length, with few or many rows.
fn random_summary(run: &mut Run, n: usize, length: usize) -> Summary {
    let any = run.rng.within(1..=MAX_ROWS);
    let nearly_full = MAX_ROWS - run.rng.below(8);
    Summary {
        n,
        rows: run.rng.choose(&[any, any, nearly_full]),
        events: run.rng.within(0..=MAX_LOG_EVENTS - length),
    }
}

/// Counts the cases that a wrong comparison of rows, a wrong mask or a wrong traffic
/// would show in.
fn note_cases(run: &mut Run, summary: Summary, word: &[u8], table: &[u16]) {
    let Summary { n, rows, .. } = summary;
    let mut appended = 0;
    for end in 0..=word.len() {
        let counts = counts_of(&word[..end]);
        let equal: Vec<usize> = (0..MAX_ROWS)
            .filter(|&row| counts_at(table, row) == counts)
            .collect();
        let present = equal.iter().filter(|&&row| row < rows).count();
        let lowest = if present > 0 { equal[0] } else { rows };
        let equal_below_n = (0..lowest).any(|row| counts_at(table, row)[..n] == counts[..n]);

        match present {
            0 => run.note("no row with the counts"),
            1 => run.note("one row with the counts"),
            _ => run.note("several rows with the counts"),
        }
        if equal_below_n {
            run.note("a lower row that differs from n on");
        }
        if present == 0 {
            if !equal.is_empty() {
                run.note("a row with the counts beyond the present ones");
            }
            if mask_at(table, rows + appended) != 0 {
                run.note("a new row where a mask was");
            }
            if traffic_at(table, rows + appended) != 0 {
                run.note("a new row where a traffic was");
            }
            appended += 1;
        } else {
            if mask_at(table, lowest) >= 1 << MAX_EVENTS {
                run.note("a mask with bits from 12 on");
            }
            match traffic_at(table, lowest) {
                65_535 => run.note("a traffic of 65,535"),
                65_534 => run.note("a traffic of 65,534"),
                _ => (),
            }
        }
    }
}

/// Takes words in turn with tables that do not come from a log.
#[test]
fn tables_of_any_contents() {
    let mut run = Run::start("tables_of_any_contents");
    for contents in Contents::ALL {
        for _ in 0..run.cases(1_500) {
            let n = run.rng.within(1..=MAX_EVENTS);
            let longest = run.rng.choose(&[3, 8, 30, 150]);
            let word = random_word(&mut run.rng, n, 0..=longest);
            let length = TABLE + run.rng.choose(&[0, 0, 1, 500]);
            let mut table = contents.table(&mut run.rng, n, &word, length);
            let mut summary = random_summary(&mut run, n, 3 * word.len());

            // The same events in other orders find some of the rows.
            for word in [run.rng.shuffled(&word), run.rng.shuffled(&word), word] {
                let (expected, table_after) = take_step_by_step(summary, &word, &table);
                if expected.is_ok() {
                    note_cases(&mut run, summary, &word, &table);
                }
                table = expect(&mut run, summary, &word, &table, expected);
                assert!(table == table_after, "{contents:?}, another table: {run}");
                summary = expected.unwrap_or(summary);
            }
        }
    }
    run.finish_with_classes(
        &[(0, 5_000), (9, 1_000)],
        &[
            ("no row with the counts", 10_000),
            ("one row with the counts", 5_000),
            ("several rows with the counts", 5_000),
            ("a lower row that differs from n on", 3_000),
            ("a row with the counts beyond the present ones", 1_000),
            ("a new row where a mask was", 10_000),
            ("a mask with bits from 12 on", 5_000),
            ("a new row where a traffic was", 10_000),
            ("a traffic of 65,535", 1_000),
            ("a traffic of 65,534", 1_000),
        ],
    );
}

/// A table worked out by hand: what a word finds, appends and leaves alone.
#[test]
fn rows_by_hand() {
    let mut run = Run::start("rows_by_hand");
    let row = |first: u16, second: u16, last: u16, mask: u16, traffic: u16| {
        [
            first, second, 0, 0, 0, 0, 0, 0, 0, 0, 0, last, mask, traffic,
        ]
    };
    let table_with = |rows: &[[u16; ROW]]| {
        let mut table = vec![7; TABLE];
        table[..rows.len() * ROW].copy_from_slice(&rows.concat());
        table
    };
    let before = table_with(&[
        row(1, 0, 9, 0xF000, 5),      // The last count differs.
        row(1, 0, 0, 0xF001, 65_534), // The prefix 0.
        row(1, 0, 0, 0x0004, 40),     // The same again: not the lowest.
        row(0, 0, 0, 0x8000, 65_535), // The empty prefix.
        row(1, 2, 0, 0xFFFF, 99),     // The whole word is not one of the present rows.
    ]);
    // The word 0 1 1 with the first four rows: 0 is allowed after the empty
    // prefix, 1 after 0 and after 0 1, whose row is appended, as the whole word's.
    let with_traffic = |of_new_rows: u16| {
        table_with(&[
            row(1, 0, 9, 0xF000, 5),
            row(1, 0, 0, 0xF003, 65_535),
            row(1, 0, 0, 0x0004, 40),
            row(0, 0, 0, 0x8001, 65_535),
            row(1, 1, 0, 0x0002, of_new_rows),
            row(1, 2, 0, 0x0000, of_new_rows),
        ])
    };
    let after = with_traffic(1);
    let summary = Summary {
        n: 2,
        rows: 4,
        events: 100,
    };
    let next = Summary {
        n: 2,
        rows: 6,
        events: 103,
    };
    let table = expect(&mut run, summary, &[0, 1, 1], &before, Ok(next));
    assert_eq!(table, after, "{run}");
    // Once more: every row is there, and two of them have 65,535 words.
    let again = Summary {
        events: 106,
        ..next
    };
    let table = expect(&mut run, next, &[0, 1, 1], &after, Ok(again));
    assert_eq!(table, with_traffic(2), "{run}");
    // The empty word changes nothing where the row of the empty prefix is present and
    // has 65,535 words. With two rows it is not, and is appended.
    let table = expect(&mut run, next, &[], &after, Ok(next));
    assert_eq!(table, after, "{run}");
    let summary = Summary {
        n: 1,
        rows: 2,
        events: 1_024,
    };
    let table = expect(
        &mut run,
        summary,
        &[],
        &after,
        Ok(Summary { rows: 3, ..summary }),
    );
    assert_eq!(table[2 * ROW..3 * ROW], row(0, 0, 0, 0, 1), "{run}");
    assert!(table[3 * ROW..] == after[3 * ROW..], "{run}");
    // A full table without that row cannot take even the empty word.
    let full = Summary {
        n: 12,
        rows: 256,
        events: 0,
    };
    expect(&mut run, full, &[], &[7; TABLE], refusal(9, 0));
    run.finish(&[(0, 4), (9, 1)]);
}

/// Summaries with one number out of range, whatever the word is.
#[test]
fn wrong_summaries() {
    let mut run = Run::start("wrong_summaries");
    for _ in 0..run.cases(20) {
        let n = run.rng.within(1..=MAX_EVENTS);
        let right = random_summary(&mut run, n, 0);
        let wrong_n = WRONG_N.map(|n| Summary { n, ..right });
        let wrong_rows = WRONG_ROWS.map(|rows| Summary { rows, ..right });
        let wrong_events = WRONG_EVENTS.map(|events| Summary { events, ..right });
        for summary in wrong_n.into_iter().chain(wrong_rows).chain(wrong_events) {
            let any_length = run.rng.choose(&[0, 1, 5, 1_024, 1_025, 70_000]);
            let word = match run.rng.below(3) {
                0 => Vec::new(),
                1 => random_word(&mut run.rng, n, 0..=10),
                _ => run.rng.bytes(any_length),
            };
            let contents = run.rng.choose(&Contents::ALL);
            let table = contents.table(&mut run.rng, n, &[], TABLE);
            expect(&mut run, summary, &word, &table, refusal(16, 0));
        }
    }
    run.finish(&[(16, 20 * 27)]);
}

/// Summaries with numbers in range are not refused with 16.
#[test]
fn right_summaries() {
    let mut run = Run::start("right_summaries");
    for n in 1..=MAX_EVENTS {
        for rows in [1, 2, 255, 256] {
            for events in [0, 1, 1_023, 1_024] {
                // Row 0 is that of the empty prefix.
                let mut table: Vec<u16> = run.rng.items(TABLE);
                table[..MAX_EVENTS].fill(0);
                let summary = Summary { n, rows, events };
                let after = expect(&mut run, summary, &[], &table, Ok(summary));
                table[TRAFFIC] = table[TRAFFIC].saturating_add(1);
                assert!(after == table, "another table: {run}");
            }
        }
    }
    run.finish(&[(0, 12 * 16)]);
}

/// Tables of every kind of length; the last two are short when their high bits
/// are lost.
#[test]
fn table_lengths() {
    let mut run = Run::start("table_lengths");
    for _ in 0..run.cases(20) {
        for length in [
            0,
            1,
            13,
            TABLE - 1,
            TABLE,
            TABLE + 1,
            65_536,
            65_536 + 3_327,
        ] {
            let n = run.rng.within(1..=MAX_EVENTS);
            let word = random_word(&mut run.rng, n, 0..=10);
            let mut table: Vec<u16> = run.rng.items(length);
            if length < TABLE {
                let summary = random_summary(&mut run, n, word.len());
                expect(&mut run, summary, &word, &table, refusal(5, TABLE));
            } else {
                table[..TABLE].fill(0);
                let summary = Summary {
                    n,
                    rows: 1,
                    events: 0,
                };
                let (expected, table_after) = take_step_by_step(summary, &word, &table);
                let after = expect(&mut run, summary, &word, &table, expected);
                assert!(after == table_after, "another table: {run}");
            }
        }
    }
    run.finish(&[(0, 80), (5, 80)]);
}

/// Words that are too long, with and without events that are not below `n`. The
/// longest ones are short when their high bits are lost.
#[test]
fn long_words() {
    let mut run = Run::start("long_words");
    let table = vec![0; TABLE];
    for _ in 0..run.cases(20) {
        for length in [
            256, 257, 1_023, 1_024, 1_025, 1_026, 2_000, 65_535, 65_536, 65_539, 66_560, 131_072,
        ] {
            let summary = Summary {
                n: run.rng.within(1..=MAX_EVENTS),
                rows: 1,
                events: 0,
            };
            let mut word = random_word(&mut run.rng, summary.n, length..=length);
            let expected = refusal(if length > MAX_LOG_EVENTS { 8 } else { 9 }, 0);
            expect(&mut run, summary, &word, &table, expected);

            // Two wrong events: the first is named, if the length is allowed.
            let (first, second) = run.rng.two_below(length);
            word[first] = run.rng.within(summary.n..=255) as u8;
            word[second] = run.rng.within(summary.n..=255) as u8;
            let expected = if length > MAX_LOG_EVENTS {
                refusal(8, 0)
            } else {
                refusal(7, first)
            };
            expect(&mut run, summary, &word, &table, expected);

            // With more events before, fewer are left.
            let events = run
                .rng
                .within(MAX_LOG_EVENTS.saturating_sub(length) + 1..=MAX_LOG_EVENTS);
            let summary = Summary { events, ..summary };
            expect(&mut run, summary, &word, &table, refusal(8, 0));
        }
    }
    run.finish(&[(7, 80), (8, 560), (9, 80)]);
}

/// Every set of causes at once: the first in the order 5, 16, 8, 7, 9 is named.
#[test]
fn order_of_refusals() {
    const ORDER: [u8; 5] = [5, 16, 8, 7, 9];
    let mut run = Run::start("order_of_refusals");
    for set in 0..1 << ORDER.len() {
        let has = |number| {
            ORDER
                .iter()
                .zip(0..)
                .any(|(&o, i)| o == number && set >> i & 1 == 1)
        };
        for _ in 0..run.cases(100) {
            let n = run.rng.within(1..=MAX_EVENTS);
            let mut word = random_word(&mut run.rng, n, 1..=200);
            // No row has the counts of a prefix, so each needs a new one.
            let mut table = vec![run.rng.within(201..=65_535) as u16; TABLE];
            let room = MAX_ROWS - word.len() - 1;
            let mut summary = Summary {
                n,
                rows: if has(9) {
                    run.rng.within(room + 1..=MAX_ROWS)
                } else {
                    run.rng.within(1..=room)
                },
                events: if has(8) {
                    run.rng
                        .within(MAX_LOG_EVENTS - word.len() + 1..=MAX_LOG_EVENTS)
                } else {
                    run.rng.within(0..=MAX_LOG_EVENTS - word.len())
                },
            };
            let first_wrong = run.rng.below(word.len());
            if has(7) {
                word[first_wrong] = run.rng.within(n..=255) as u8;
            }
            if has(16) {
                match run.rng.below(3) {
                    0 => summary.n = run.rng.choose(&WRONG_N),
                    1 => summary.rows = run.rng.choose(&WRONG_ROWS),
                    _ => summary.events = run.rng.choose(&WRONG_EVENTS),
                }
            }
            if has(5) {
                table.truncate(run.rng.below(TABLE));
            }

            let first = ORDER.into_iter().find(|&number| has(number));
            let expected = match first {
                Some(5) => refusal(5, TABLE),
                Some(7) => refusal(7, first_wrong),
                Some(number) => refusal(number, 0),
                None => Ok(Summary {
                    n,
                    rows: summary.rows + word.len() + 1,
                    events: summary.events + word.len(),
                }),
            };
            expect(&mut run, summary, &word, &table, expected);
        }
    }
    run.finish(&[
        (0, 100),
        (5, 1_600),
        (16, 800),
        (8, 400),
        (7, 200),
        (9, 100),
    ]);
}
