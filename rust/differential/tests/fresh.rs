//! Fresh logs: event counts, and tables of every kind of length and contents.

use differential::logs::{MAX_EVENTS, TABLE, WRONG_N};
use differential::run::{refusal, Run};
use reference::Summary;

/// Table lengths around the limit, and far from it. The last two are short when
/// their high bits are lost.
const LENGTHS: [usize; 9] = [
    0,
    1,
    13,
    TABLE - 1,
    TABLE,
    TABLE + 1,
    2 * TABLE,
    65_536,
    65_536 + 3_327,
];

/// Starts a log and checks what the rules say about answer and table.
fn fresh(run: &mut Run, n: usize, table: &[u16]) {
    let fresh = run.fresh(n, table);
    if table.len() < TABLE {
        assert_eq!(fresh.outcome, refusal(5, TABLE), "{run}");
        assert!(fresh.table == table, "the table changed: {run}");
    } else if !(1..=MAX_EVENTS).contains(&n) {
        assert_eq!(fresh.outcome, refusal(16, 0), "{run}");
        assert!(fresh.table == table, "the table changed: {run}");
    } else {
        let summary = Summary {
            n,
            rows: 1,
            events: 0,
        };
        assert_eq!(fresh.outcome, Ok(summary), "{run}");
        let (front, rest) = fresh.table.split_at(TABLE);
        assert!(front.iter().all(|&number| number == 0), "{run}");
        assert!(rest == &table[TABLE..], "changed beyond the table: {run}");
    }
}

/// Every event count with every length: refusal 5 comes before refusal 16.
#[test]
fn event_counts_and_table_lengths() {
    let mut run = Run::start("event_counts_and_table_lengths");
    for _ in 0..run.cases(4) {
        for length in LENGTHS {
            for n in (1..=MAX_EVENTS).chain(WRONG_N) {
                let table: Vec<u16> = run.rng.items(length);
                fresh(&mut run, n, &table);
            }
        }
    }
    // For each of 12 right and 10 wrong event counts 4 short and 5 long tables.
    run.finish(&[(0, 240), (5, 352), (16, 200)]);
}

#[test]
fn event_counts_up_to_a_thousand() {
    let mut run = Run::start("event_counts_up_to_a_thousand");
    let table: Vec<u16> = run.rng.items(TABLE);
    for n in 0..=1_000 {
        fresh(&mut run, n, &table);
    }
    run.finish(&[(0, 12), (16, 989)]);
}

/// Tables of zeros, of the largest numbers and with one number that is not zero.
#[test]
fn contents() {
    let mut run = Run::start("contents");
    for length in [TABLE, TABLE + 1, TABLE + 200] {
        fresh(&mut run, 1, &vec![0; length]);
        fresh(&mut run, 12, &vec![65_535; length]);
        for position in 0..length {
            let mut table = vec![0; length];
            table[position] = run.rng.choose(&[1, 256, 32_768, 65_535]);
            let n = run.rng.within(1..=MAX_EVENTS);
            fresh(&mut run, n, &table);
        }
    }
    run.finish(&[(0, 3 * (TABLE + 2) + 201)]);
}
