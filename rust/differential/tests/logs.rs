//! Logs from a fresh table on, word by word, up to the limits.

use differential::logs::{
    mask_at, random_word, table_of, traffic_at, Shape, MAX_EVENTS, MAX_LOG_EVENTS, MAX_ROWS, ROW,
    TABLE,
};
use differential::run::{refusal, Outcome, Run};
use reference::{log_rows, Refusal, Summary};

/// A log in the making: each word is taken with the summary and the table that
/// the word before it left.
struct Log {
    summary: Summary,
    table: Vec<u16>,
    /// What follows the table and stays as it is.
    rest: Vec<u16>,
    words: Vec<Vec<u8>>,
}

impl Log {
    /// A log over `n` events without words, in a table that was full of noise.
    fn fresh(run: &mut Run, n: usize) -> Self {
        let length = TABLE + run.rng.choose(&[0, 0, 1, 14, 1_000]);
        let noise: Vec<u16> = run.rng.items(length);
        let fresh = run.fresh(n, &noise);
        Self {
            summary: fresh.outcome.expect("an allowed event count"),
            table: fresh.table,
            rest: noise[TABLE..].to_vec(),
            words: Vec::new(),
        }
    }

    /// Takes a word. A refused one leaves the log as it was.
    fn take(&mut self, run: &mut Run, word: &[u8]) -> Outcome<Summary> {
        let taken = run.take(self.summary, word, &self.table);
        match taken.outcome {
            Ok(summary) => {
                self.summary = summary;
                self.table = taken.table;
                self.words.push(word.to_vec());
            }
            Err(_) => assert!(taken.table == self.table, "the table changed: {run}"),
        }
        taken.outcome
    }

    /// Checks summary and table by the definition of a log's rows.
    fn check(&self, run: &Run) {
        let Summary { n, rows, events } = self.summary;
        assert_eq!(rows, log_rows(n, &self.words).len(), "{run}");
        assert_eq!(events, self.words.concat().len(), "{run}");
        let (table, rest) = self.table.split_at(TABLE);
        assert!(table == table_of(n, &self.words), "other rows: {run}");
        assert!(rest == self.rest, "changed beyond the table: {run}");
    }

    /// Checks that a word was refused because it would pass a limit.
    fn check_refusal(&self, run: &Run, word: &[u8], refused: Refusal) {
        let expected = if self.summary.events + word.len() > MAX_LOG_EVENTS {
            8
        } else {
            let with_word = [self.words.as_slice(), &[word.to_vec()]].concat();
            let rows = log_rows(self.summary.n, &with_word).len();
            assert!(rows > MAX_ROWS, "refused with {rows} rows: {run}");
            9
        };
        assert_eq!(Err(refused), refusal::<()>(expected, 0), "{run}");
    }
}

#[test]
fn generated_logs() {
    let mut run = Run::start("generated_logs");
    for shape in Shape::ALL {
        for n in 1..=MAX_EVENTS {
            for _ in 0..run.cases(8) {
                let mut log = Log::fresh(&mut run, n);
                let mut refusals = 0;
                for word in shape.words(&mut run.rng, n) {
                    let rows_before = log.summary.rows;
                    match log.take(&mut run, &word) {
                        Ok(summary) if summary.rows == rows_before => run.note("no new row"),
                        Ok(_) => run.note("new rows"),
                        Err(refused) => {
                            log.check_refusal(&run, &word, refused);
                            refusals += 1;
                        }
                    }
                    // A full table refuses most of the words that follow.
                    if refusals == 3 {
                        break;
                    }
                }
                log.check(&run);
                if log.summary.rows == MAX_ROWS {
                    run.note("256 rows");
                }
                if log.summary.events == MAX_LOG_EVENTS {
                    run.note("1,024 events");
                }
            }
        }
    }
    run.finish_with_classes(
        &[(0, 20_000), (8, 100), (9, 200)],
        &[
            ("no new row", 10_000),
            ("new rows", 3_000),
            ("256 rows", 10),
            ("1,024 events", 10),
        ],
    );
}

/// Sample I: the log 0 1 2 and 1 0 3 with four events.
#[test]
fn sample_i() {
    let mut run = Run::start("sample_i");
    let mut log = Log::fresh(&mut run, 4);
    log.take(&mut run, &[0, 1, 2]).expect("the first word");
    log.take(&mut run, &[1, 0, 3]).expect("the second word");
    log.check(&run);

    let summary = Summary {
        n: 4,
        rows: 6,
        events: 6,
    };
    assert_eq!(log.summary, summary, "{run}");
    // Counts of the four events, then the mask, then the traffic. 2 and 3 are allowed
    // after 0 1, whose row both words pass.
    let rows: [([u16; 4], u16, u16); 6] = [
        ([0, 0, 0, 0], 0b0011, 2),
        ([1, 0, 0, 0], 0b0010, 1),
        ([1, 1, 0, 0], 0b1100, 2),
        ([1, 1, 1, 0], 0b0000, 1),
        ([0, 1, 0, 0], 0b0001, 1),
        ([1, 1, 0, 1], 0b0000, 1),
    ];
    let mut expected = Vec::new();
    for (counts, mask, traffic) in rows {
        expected.extend(counts);
        expected.extend([0; 8]);
        expected.extend([mask, traffic]);
    }
    expected.resize(TABLE, 0);
    assert_eq!(log.table[..TABLE], expected, "{run}");

    let masks = (0..summary.rows).map(|row| mask_at(&log.table, row));
    let allowed: u32 = masks.map(u16::count_ones).sum();
    assert_eq!(allowed, 6, "{run}");
    assert_eq!(6 * 4 - allowed, 18, "wrong continuations: {run}");
    run.finish(&[(0, 3)]);
}

/// Sample J: four words of 255 equal events with one event, and a fifth one.
#[test]
fn sample_j() {
    let mut run = Run::start("sample_j");
    let mut log = Log::fresh(&mut run, 1);
    for words in 1..=4 {
        let summary = Summary {
            n: 1,
            rows: 256,
            events: words * 255,
        };
        assert_eq!(log.take(&mut run, &[0; 255]), Ok(summary), "{run}");
        log.check(&run);
        assert!((0..256).all(|row| traffic_at(&log.table, row) == words as u16));
    }
    assert_eq!(log.take(&mut run, &[0; 255]), refusal(8, 0), "{run}");
    log.check(&run);

    // Four events are left, and then none: only the empty word is taken.
    assert_eq!(log.take(&mut run, &[0; 5]), refusal(8, 0), "{run}");
    log.take(&mut run, &[0; 4]).expect("1,024 events");
    assert_eq!(log.take(&mut run, &[0]), refusal(8, 0), "{run}");
    log.take(&mut run, &[]).expect("no further event");
    assert_eq!(log.summary.events, MAX_LOG_EVENTS, "{run}");
    log.check(&run);
    run.finish(&[(0, 7), (8, 3)]);
}

/// 65,536 empty words and some others: row 0 reaches 65,535 and stays there, and
/// no other number changes.
#[test]
fn empty_words() {
    let mut run = Run::start("empty_words");
    let mut table = [9; TABLE + 1];
    let n = run.rng.within(2..=MAX_EVENTS);
    let mut summary = hovmekhar::Summary::fresh(n, &mut table).expect("an event count");
    summary = summary.take(&[0, 1, 1], &mut table).expect("a first word");
    let before = table;
    for words in 2..=65_537_u32 {
        let next = summary.take(&[], &mut table).expect("an empty word");
        assert_eq!(next, summary, "{words} words: {run}");
        assert_eq!(u32::from(traffic_at(&table, 0)), words.min(65_535), "{run}");
    }
    assert_eq!(table[ROW - 1], 65_535, "{run}");
    assert_eq!(table[..ROW - 1], before[..ROW - 1], "{run}");
    assert_eq!(table[ROW..], before[ROW..], "{run}");

    // With row 0 full, another word still counts in its other rows.
    summary = summary.take(&[0, 0], &mut table).expect("a last word");
    let traffic = (0..summary.rows).map(|row| traffic_at(&table, row));
    assert_eq!(traffic.collect::<Vec<_>>(), [65_535, 2, 1, 1, 1], "{run}");
    let reference = run.take(
        Summary {
            n,
            rows: summary.rows,
            events: summary.events,
        },
        &[1],
        &table,
    );
    assert_eq!(traffic_at(&reference.table, 0), 65_535, "{run}");
    run.finish(&[(0, 1)]);
}

/// From every number of rows to exactly 256 of them, and to one more.
#[test]
fn rows_up_to_the_limit() {
    let mut run = Run::start("rows_up_to_the_limit");
    for rows in 1..=MAX_ROWS {
        let n = run.rng.within(2..=MAX_EVENTS);
        let (low, high) = run.rng.two_below(n);
        let mut log = Log::fresh(&mut run, n);
        log.take(&mut run, &vec![low as u8; rows - 1])
            .expect("the rows so far");
        assert_eq!(log.summary.rows, rows, "{run}");

        // The row of the empty prefix is there, so each event needs one more.
        let left = MAX_ROWS - rows;
        let longer = vec![high as u8; left + 1];
        assert_eq!(log.take(&mut run, &longer), refusal(9, 0), "{run}");
        log.take(&mut run, &longer[..left]).expect("256 rows");
        assert_eq!(log.summary.rows, MAX_ROWS, "{run}");
        log.check(&run);

        // A word that needs no further row can still be taken.
        assert_eq!(log.take(&mut run, &longer), refusal(9, 0), "{run}");
        log.take(&mut run, &longer[..left]).expect("no further row");
        log.check(&run);
    }
    run.finish(&[(0, 4 * 256), (9, 2 * 256)]);
}

/// From every number of events to exactly 1,024 of them, and to one more.
#[test]
fn events_up_to_the_limit() {
    let mut run = Run::start("events_up_to_the_limit");
    for events in 0..=MAX_LOG_EVENTS {
        let mut log = Log::fresh(&mut run, 2);
        // Words of ones, each no longer than a table has rows for.
        for start in (0..events).step_by(200) {
            let length = (events - start).min(200);
            log.take(&mut run, &vec![1; length]).expect("events so far");
        }
        assert_eq!(log.summary.events, events, "{run}");

        let left = MAX_LOG_EVENTS - events;
        let longer = vec![1; left + 1];
        assert_eq!(log.take(&mut run, &longer), refusal(8, 0), "{run}");
        // A word has one row more than events.
        let expected = if left < MAX_ROWS {
            Ok(Summary {
                n: 2,
                rows: log.summary.rows.max(left + 1),
                events: MAX_LOG_EVENTS,
            })
        } else {
            refusal(9, 0)
        };
        assert_eq!(log.take(&mut run, &longer[..left]), expected, "{run}");
        log.check(&run);
    }
    run.finish(&[(0, 256 + 1_025), (8, 1_025), (9, 769)]);
}

/// The rows of a log, sorted, after taking its words.
fn sorted_rows(run: &mut Run, n: usize, words: &[Vec<u8>]) -> Vec<Vec<u16>> {
    let mut log = Log::fresh(run, n);
    for word in words {
        log.take(run, word).expect("few rows");
    }
    log.check(run);
    let rows = &log.table[..log.summary.rows * ROW];
    let mut rows: Vec<Vec<u16>> = rows.chunks(ROW).map(<[u16]>::to_vec).collect();
    rows.sort();
    rows
}

/// Words in another order make the same rows, with the same masks and the same
/// traffic, in another order.
#[test]
fn order_of_words() {
    let mut run = Run::start("order_of_words");
    for _ in 0..run.cases(100) {
        let n = run.rng.within(1..=MAX_EVENTS);
        let count = run.rng.within(2..=8);
        let words: Vec<Vec<u8>> = (0..count)
            .map(|_| random_word(&mut run.rng, n, 0..=20))
            .collect();
        let shuffled = run.rng.shuffled(&words);
        let rows = sorted_rows(&mut run, n, &words);
        assert_eq!(rows, sorted_rows(&mut run, n, &shuffled), "{run}");
    }
    run.finish(&[(0, 600)]);
}
