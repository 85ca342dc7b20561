//! `hov show` on the new edition: exactly what it prints.

mod support;

use differential::bundles::{unbalanced, SAMPLE_NEW};
use differential::files::build;
use std::fs;
use support::{hov, hov_in, Done};

const SALES: &str = "samples/sales.sealed";

const HEAD: &str = "\
samples/sales.sealed: 512 bytes, 1 block; a bundle of 80 bytes
accepted: 4 rows, 3 allowed steps, 7 certificates of kind 0, 2 of kind 1
";

#[test]
fn accepted_sample() {
    let body = "
n = 3: events 0 to 2; new edition
2 words, 5 events
  word 0 at 2: 0 1; completed
  word 1 at 6: 0 1 2; partial
4 rows
  row 0: counts 0 0 0, after the empty word; traffic 2; allowed 0
  row 1: counts 1 0 0, after 0; traffic 2; allowed 1
  row 2: counts 1 1 0, after 0 1; traffic 2; allowed 2
  row 3: counts 1 1 1, after 0 1 2; traffic 1; allowed none
2 places
  place 0 at 12: m 1, in 0 1 0, out 1 0 1
  place 1 at 26: m 0, in 1 0 0, out 0 1 0
9 certificates
  certificate 0 at 40: event 1 after the empty word (row 0): kind 0, place 1, surplus -1
  certificate 1 at 42: event 2 after the empty word (row 0): kind 1, k 1, 1 term, 1 pair
  certificate 2 at 55: event 0 after 0 (row 1): kind 0, place 0, surplus -1
  certificate 3 at 57: event 2 after 0 (row 1): kind 0, place 0, surplus -1
  certificate 4 at 59: event 0 after 0 1 (row 2): kind 1, k 1, 1 term, 1 pair
  certificate 5 at 72: event 1 after 0 1 (row 2): kind 0, place 1, surplus -1
  certificate 6 at 74: event 0 after 0 1 2 (row 3): kind 0, place 0, surplus -1
  certificate 7 at 76: event 1 after 0 1 2 (row 3): kind 0, place 1, surplus -1
  certificate 8 at 78: event 2 after 0 1 2 (row 3): kind 0, place 0, surplus -1
";
    let page = format!("{HEAD}{body}");
    assert_eq!(hov(&["show", SALES]), Done::new(0, &page, ""));
}

/// The weight of a pair below 0, and above 0.
#[test]
fn certificates_with_pairs() {
    let body = "
certificate 1 at 42: event 2 after the empty word (row 0, counts 0 0 0)
kind 1, k 1, 1 term, 1 pair
  term 0: event 2 after 0 1 (row 2, counts 1 1 0): allowed, weight 1
  pair 0: word 0 (0 1, counts 1 1 0): completed, weight -1
the sum of g is at most k:
  1 <= 1: holds
the sum of g * u(i) + the sum of h * u(i) is at most k * v(i):
  event 0: 1 - 1 = 0 <= 1 * 0 = 0: holds
  event 1: 1 - 1 = 0 <= 1 * 0 = 0: holds
  event 2: 0 + 0 = 0 <= 1 * 0 = 0: holds
the sum of g * (u(i) + [f = i]) + the sum of h * u(i) is at least k * (v(i) + [e = i]):
  event 0: 1 - 1 = 0 >= 1 * 0 = 0: holds
  event 1: 1 - 1 = 0 >= 1 * 0 = 0: holds
  event 2: 1 + 0 = 1 >= 1 * 1 = 1: holds
";
    let page = format!("{HEAD}{body}");
    let done = hov(&["show", SALES, "--certificate", "1"]);
    assert_eq!(done, Done::new(0, &page, ""));

    let body = "
certificate 4 at 59: event 0 after 0 1 (row 2, counts 1 1 0)
kind 1, k 1, 1 term, 1 pair
  term 0: event 0 after the empty word (row 0, counts 0 0 0): allowed, weight 1
  pair 0: word 0 (0 1, counts 1 1 0): completed, weight 1
the sum of g is at most k:
  1 <= 1: holds
the sum of g * u(i) + the sum of h * u(i) is at most k * v(i):
  event 0: 0 + 1 = 1 <= 1 * 1 = 1: holds
  event 1: 0 + 1 = 1 <= 1 * 1 = 1: holds
  event 2: 0 + 0 = 0 <= 1 * 0 = 0: holds
the sum of g * (u(i) + [f = i]) + the sum of h * u(i) is at least k * (v(i) + [e = i]):
  event 0: 1 + 1 = 2 >= 1 * 2 = 2: holds
  event 1: 0 + 1 = 1 >= 1 * 1 = 1: holds
  event 2: 0 + 0 = 0 >= 1 * 0 = 0: holds
";
    let page = format!("{HEAD}{body}");
    let done = hov(&["show", SALES, "--certificate", "4"]);
    assert_eq!(done, Done::new(0, &page, ""));
}

/// What is said of a refused bundle, in the second line of its page.
fn words_of(directory: &str, bundle: &[u8]) -> String {
    let directory = support::directory(directory);
    fs::write(directory.join("file"), build(bundle)).expect("the file is written");
    let done = hov_in(&directory, &["show", "file"]);
    assert_eq!((done.status, done.errors.as_str()), (1, ""));
    done.output.lines().nth(1).expect("a verdict").to_string()
}

fn changed(position: usize, value: u8) -> Vec<u8> {
    let mut bundle = SAMPLE_NEW.to_vec();
    bundle[position] = value;
    bundle
}

#[test]
fn words_for_refusals() {
    let mut fewer = SAMPLE_NEW.to_vec();
    // Event 1 takes two of the five tokens, and event 0 puts in one.
    fewer[26] = 5;
    fewer[36] = 2;
    let mut cut = SAMPLE_NEW[..53].to_vec();
    for (bundle, words) in [
        (changed(0, 13), "7 0: the first byte, at offset 0, is 13, but must be 1 to 12, or 129 to 140 in the new edition"),
        (changed(0, 141), "7 0: the first byte, at offset 0, is 141, but must be 1 to 12, or 129 to 140 in the new edition"),
        (changed(3, 2), "7 3: the mark of word 0, at offset 3, is 2, but must be 0 to 1"),
        (SAMPLE_NEW[..7].to_vec(), "6 7: the bundle ends before the mark of word 1, at offset 7 of 7"),
        (unbalanced(), "20 1: place 1 has 1 token more after word 0 (0 1), which is completed"),
        (fewer, "20 1: place 1 has 1 token fewer after word 0 (0 1), which is completed"),
        (changed(51, 65), "7 51: the pair count of certificate 1, at offset 51, is 65, but must be 0 to 64"),
        (changed(52, 2), "7 52: the word of pair 0 of certificate 1, at offset 52, is 2, but must be 0 to 1"),
        (cut.clone(), "6 53: the bundle ends before the weight of pair 0 of certificate 1, at offset 53 of 53"),
        (changed(52, 1), "12 1: certificate 1: event 2 after the empty word (row 0): pair 0 has word 1 (0 1 2), which is partial"),
        (changed(53, 254), "12 1: certificate 1: event 2 after the empty word (row 0): the sum of g * (u(0) + [f = 0]) + the sum of h * u(0) \
             is 1 - 2 = -1, but must be at least k * (v(0) + [e = 0]) = 1 * 0 = 0"),
        (changed(69 + 1, 2), "12 4: certificate 4: event 0 after 0 1 (row 2): the sum of g * u(0) + the sum of h * u(0) \
             is 0 + 2 = 2, but must be at most k * v(0) = 1 * 1 = 1"),
    ] {
        assert_eq!(words_of("words_for_refusals", &bundle), format!("refused {words}"));
    }
    cut.push(255);
    let inside = "refused 6 53: the bundle ends inside the weight of pair 0 of certificate 1, at offset 53 of 54";
    assert_eq!(words_of("words_for_refusals", &cut), inside);
    // No word, and a pair that names one.
    let no_word = [129, 0, 0, 1, 1, 0, 0, 1, 0, 0, 0];
    let words = "refused 7 8: the word of pair 0 of certificate 0, at offset 8, is 0, but there are no words";
    assert_eq!(words_of("words_for_refusals", &no_word), words);
}

/// What was read of a place that does not obey: all places, and no certificate.
#[test]
fn refused_sample() {
    let done = hov(&["show", "samples/unbalanced.sealed"]);
    let lines: Vec<&str> = done.output.lines().collect();
    assert_eq!(done.status, 1);
    let advice =
        "what to do: the modeller must balance or drop this place, or mark the word as partial";
    assert_eq!(lines[2], advice);
    let end = [
        "2 places",
        "  place 0 at 12: m 1, in 0 1 0, out 1 0 1",
        "  place 1 at 26: m 0, in 2 0 0, out 0 1 0",
        "here the reading ends, at offset 40 of 80",
    ];
    assert_eq!(lines[lines.len() - 4..], end);
}
