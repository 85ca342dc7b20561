//! `hov show`: exactly what it prints.

mod support;

use differential::bundles::{one_for_each_answer, SAMPLE_A};
use differential::files::build;
use std::fs::{self, File};
use support::{command, directory, hov, hov_in, hov_unread, hov_with, Done};

const A: &str = "samples/a.sealed";

const HEAD_OF_A: &str = "\
samples/a.sealed: 512 bytes, 1 block; a bundle of 53 bytes
accepted: 5 rows, 4 allowed steps, 5 certificates of kind 0, 1 of kind 1
";

const BODY_OF_A: &str = "
n = 2: events 0 to 1
2 words, 4 events
  word 0 at 2: 1
  word 1 at 4: 0 0 1
5 rows
  row 0: counts 0 0, after the empty word; traffic 2; allowed 0 1
  row 1: counts 0 1, after 1; traffic 1; allowed none
  row 2: counts 1 0, after 0; traffic 1; allowed 0
  row 3: counts 2 0, after 0 0; traffic 1; allowed 1
  row 4: counts 2 1, after 0 0 1; traffic 1; allowed none
2 places
  place 0 at 9: m 1, in 1 0, out 1 1
  place 1 at 19: m 2, in 0 0, out 1 0
6 certificates
  certificate 0 at 29: event 0 after 1 (row 1): kind 0, place 0, surplus -1
  certificate 1 at 31: event 1 after 1 (row 1): kind 0, place 0, surplus -1
  certificate 2 at 33: event 1 after 0 (row 2): kind 1, k 2, 2 terms
  certificate 3 at 47: event 0 after 0 0 (row 3): kind 0, place 1, surplus -1
  certificate 4 at 49: event 0 after 0 0 1 (row 4): kind 0, place 0, surplus -1
  certificate 5 at 51: event 1 after 0 0 1 (row 4): kind 0, place 0, surplus -1
";

#[test]
fn sample_a() {
    let page = format!("{HEAD_OF_A}{BODY_OF_A}");
    assert_eq!(hov(&["show", A]), Done::new(0, &page, ""));
    let (status, output, errors) = hov_with(&["show", "-"], &build(&SAMPLE_A));
    assert_eq!((status, errors.as_str()), (0, ""));
    assert_eq!(String::from_utf8_lossy(&output), page.replace(A, "-"));
}

#[test]
fn sample_f() {
    let page = "\
samples/f.sealed: 512 bytes, 1 block; a bundle of 3 bytes
refused 6 3: the bundle ends before the kind of certificate 0, at offset 3 of 3
what to do: the modeller's file lacks what the counts before announce

n = 1: event 0
no words, no events
1 row
  row 0: counts 0, after the empty word; traffic 0; allowed none
no places
0 of 1 certificate
here the bundle ends, before the kind of certificate 0
";
    assert_eq!(hov(&["show", "samples/f.sealed"]), Done::new(1, page, ""));
}

#[test]
fn damaged_sample() {
    let page = "\
samples/damaged.sealed: 512 bytes, 1 block
refused 2 0: the sums of block 0 are wrong
  block 0: S is 85 in place of 86; W is 991 in place of 996
what to do: bytes were damaged on the way: have it sent again
";
    assert_eq!(
        hov(&["show", "samples/damaged.sealed"]),
        Done::new(1, page, "")
    );
}

#[test]
fn joined_sample() {
    let page = "\
samples/joined.sealed: 1024 bytes, 2 blocks
refused 18 0: the used count of block 0 is wrong, or an unused byte of it is not zero
  block 0: its used count is 53 in place of 504
  block 1: its number is 0 in place of 1
what to do: it was cut short, or written by something else: have it sent again
";
    assert_eq!(
        hov(&["show", "samples/joined.sealed"]),
        Done::new(1, page, "")
    );
}

#[test]
fn shuffled_sample() {
    let page = "\
samples/shuffled.sealed: 2048 bytes, 4 blocks
refused 17 1: the block at position 1 has another number
  block 1: its number is 2 in place of 1
  block 2: its number is 1 in place of 2
the blocks stand in the order 0 2 1 3
what to do: the blocks came in the wrong order, or one is missing: have it sent again in order
";
    assert_eq!(
        hov(&["show", "samples/shuffled.sealed"]),
        Done::new(1, page, "")
    );
}

/// What is said about the order of the blocks, between the blocks and what to do.
fn order_shown(file: &[u8]) -> String {
    let (status, page, errors) = hov_with(&["show", "-"], file);
    assert_eq!((status, errors.as_str()), (1, ""));
    let page = String::from_utf8(page).expect("pages are text");
    let lines = page.lines().skip(2).filter(|line| !line.starts_with(' '));
    let mut lines: Vec<&str> = lines.collect();
    let last = lines.pop().expect("a last line");
    assert!(last.starts_with("what to do: "), "{page}");
    lines.join("\n")
}

/// Blocks of a sound file of four, in this order.
#[test]
fn order_of_blocks() {
    let sound = build(&[7; 4 * 504]);
    for (order, line) in [
        (
            [0, 2, 1, 3].as_slice(),
            "the blocks stand in the order 0 2 1 3",
        ),
        (&[3, 2, 1, 0], "the blocks stand in the order 3 2 1 0"),
        // Lost.
        (&[1, 2, 3], "block 0 is missing"),
        (&[0, 2, 3], "block 1 is missing"),
        (&[3, 0, 2], "block 1 is missing"),
        (&[1], "block 0 is missing"),
        // More than one of them.
        (&[0, 3], ""),
        (&[2, 3], ""),
        // Doubled: nothing is known to be missing, but where a block stands in the
        // place of another one.
        (&[0, 1, 1, 2], "the blocks stand in the order 0 1 1 2"),
        (&[0, 0], "the blocks stand in the order 0 0"),
        (
            &[0, 1, 1, 3],
            "the blocks stand in the order 0 1 1 3; block 2 is missing",
        ),
    ] {
        let blocks = order
            .iter()
            .map(|&block: &usize| &sound[block * 512..][..512]);
        let file = blocks.collect::<Vec<_>>().concat();
        assert_eq!(order_shown(&file), line, "{order:?}");
    }
}

/// Where nothing is known about the order, nothing is said.
#[test]
fn no_order_of_blocks() {
    // A number that was damaged is not that of a block that was moved.
    let mut damaged = build(&[7; 3]);
    damaged[0] = 1;
    assert_eq!(order_shown(&damaged), "");
    // The refusal is for something else.
    let mut swapped = build(&[7; 4 * 504]);
    swapped[512..3 * 512].rotate_left(512);
    for byte in [2, 4] {
        let mut lower = swapped.clone();
        lower[byte] ^= 1;
        assert_eq!(order_shown(&lower), "", "byte {byte}");
    }
}

#[test]
fn certificate_of_kind_1() {
    let page = format!(
        "{HEAD_OF_A}
certificate 2 at 33: event 1 after 0 (row 2, counts 1 0)
kind 1, k 2, 2 terms
  term 0: event 1 after the empty word (row 0, counts 0 0): allowed, weight 1
  term 1: event 1 after 0 0 (row 3, counts 2 0): allowed, weight 1
the sum of g is at most k:
  2 <= 2: holds
the sum of g * u(i) is at most k * v(i):
  event 0: 2 <= 2 * 1 = 2: holds
  event 1: 0 <= 2 * 0 = 0: holds
the sum of g * (u(i) + [f = i]) is at least k * (v(i) + [e = i]):
  event 0: 2 >= 2 * 1 = 2: holds
  event 1: 2 >= 2 * 1 = 2: holds
"
    );
    assert_eq!(
        hov(&["show", A, "--certificate", "2"]),
        Done::new(0, &page, "")
    );
    assert_eq!(
        hov(&["show", "--certificate", "02", A]),
        Done::new(0, &page, "")
    );
}

#[test]
fn certificate_of_kind_0() {
    let page = format!(
        "{HEAD_OF_A}
certificate 0 at 29: event 0 after 1 (row 1, counts 0 1)
kind 0, place 0 at 9: m 1, in 1 0, out 1 1
m + the sum of v(i) * (in(i) - out(i)) - out(0):
  1 + 1 * (0 - 1) - 1 = -1: the place refuses it
"
    );
    assert_eq!(
        hov(&["show", A, "--certificate", "0"]),
        Done::new(0, &page, "")
    );
}

/// A certificate that is not there: a line on standard error and nothing else.
#[test]
fn missing_certificates() {
    for (file, number, why) in [
        (A, "6", "it has 6 certificates"),
        (A, "18446744073709551615", "it has 6 certificates"),
        (
            "samples/f.sealed",
            "0",
            "no certificates read, then refusal 6: the bundle ends before or inside the field at offset 3",
        ),
        (
            "samples/damaged.sealed",
            "0",
            "no certificates read, then refusal 2: the sums of block 0 are wrong",
        ),
    ] {
        let error = format!("hov: {file}: no certificate {number}: {why}\n");
        let done = hov(&["show", file, "--certificate", number]);
        assert_eq!(done, Done::new(2, "", &error));
    }
}

/// A page, and one without its listing.
fn page_of(directory: &str, bundle: &[u8]) -> (Vec<String>, Vec<String>) {
    let directory = support::directory(directory);
    fs::write(directory.join("file"), build(bundle)).expect("the file is written");
    let done = hov_in(&directory, &["show", "file"]);
    assert_eq!((done.status, done.errors.as_str()), (1, ""), "{done:?}");
    let (head, body) = done.output.split_once("\n\n").expect("a head and a body");
    let lines = |text: &str| text.lines().map(String::from).collect();
    (lines(head), lines(body))
}

/// The second line of the page and the last, for a bundle that is refused.
fn expect_words(name: &str, bundle: &[u8], words: &str, foot: &str) {
    let (head, body) = page_of(name, bundle);
    assert_eq!(head.len(), 3, "{head:?}");
    assert_eq!(head[1], words);
    assert!(head[2].starts_with("what to do: "), "{head:?}");
    assert_eq!(body.last().expect("a foot"), foot);
}

fn changed(position: usize, value: u8) -> Vec<u8> {
    let mut bundle = SAMPLE_A.to_vec();
    bundle[position] = value;
    bundle
}

/// A bundle that is refused with this number.
fn of_number(number: u8) -> Vec<u8> {
    let mut answers = one_for_each_answer().into_iter();
    let is_number = |answer: &reference::Refusal| answer.number == number;
    let found = answers.find(|(_, answer)| answer.as_ref().is_err_and(is_number));
    found.expect("there is one").0
}

/// What is wrong with a field or with the log.
#[test]
fn words_for_fields_and_logs() {
    expect_words(
        "number_6",
        &SAMPLE_A[..12],
        "refused 6 11: the bundle ends inside in(0) of place 0, at offset 11 of 12",
        "here the bundle ends, inside in(0) of place 0",
    );
    expect_words(
        "number_7",
        &of_number(7),
        "refused 7 4: k of certificate 0, at offset 4, is 0, but must be 1 to 65535",
        "here the reading ends, at offset 4 of 7",
    );
    expect_words(
        "number_7_event",
        &changed(6, 2),
        "refused 7 6: the event at position 1 of word 1, at offset 6, is 2, but must be 0 to 1",
        "here the reading ends, at offset 6 of 53",
    );
    expect_words(
        "number_8",
        &of_number(8),
        "refused 8 1026: word 4 at 1026 has 255 events: with the 1020 before it 1275, and 1024 are the most",
        "here the reading ends, at offset 1027 of 1282",
    );
    expect_words(
        "number_9",
        &of_number(9),
        "refused 9 258: with word 1 at 258 the log has 257 rows, and 256 are the most",
        "here the reading ends, at offset 260 of 260",
    );
}

/// What is wrong with the net or with a certificate, in words of the net.
#[test]
fn words_for_nets_and_certificates() {
    expect_words(
        "number_10",
        &of_number(10),
        "refused 10 0: place 0 refuses an allowed step: event 0 after the empty word (row 0), surplus -1",
        "here the reading ends, at offset 29 of 53",
    );
    expect_words(
        "number_11",
        &of_number(11),
        "refused 11 0: certificate 0: event 0 after 1 (row 1), named place 1, surplus 1: the place permits it",
        "here the reading ends, at offset 31 of 53",
    );
    expect_words(
        "number_12",
        &of_number(12),
        "refused 12 0: certificate 0: event 0 after the empty word (row 0): the sum of g * (u(0) + [f = 0]) is 0, but must be at least k * (v(0) + [e = 0]) = 1 * 1 = 1",
        "here the reading ends, at offset 7 of 7",
    );
    expect_words(
        "number_12_sum",
        &changed(40, 2),
        "refused 12 2: certificate 2: event 1 after 0 (row 2): the sum of g is 3, but must be at most k = 2",
        "here the reading ends, at offset 47 of 53",
    );
    expect_words(
        "number_12_step",
        &changed(42, 2),
        "refused 12 2: certificate 2: event 1 after 0 (row 2): term 1 has event 1 after 0 (row 2), which is not allowed",
        "here the reading ends, at offset 47 of 53",
    );
    expect_words(
        "number_13",
        &of_number(13),
        "refused 13 53: 1 byte behind the last certificate, from offset 53 on",
        "here the certificates end, with 1 byte left",
    );
}

/// A certificate that does not hold is shown in full.
#[test]
fn failing_certificates() {
    let directory = directory("failing_certificates");
    let show = |bundle: &[u8], number: &str| {
        fs::write(directory.join("file"), build(bundle)).expect("the file is written");
        let done = hov_in(&directory, &["show", "file", "--certificate", number]);
        assert_eq!((done.status, done.errors.as_str()), (1, ""));
        done.output
    };
    let page = show(&changed(30, 1), "0");
    let lines = "
certificate 0 at 29: event 0 after 1 (row 1, counts 0 1)
kind 0, place 1 at 19: m 2, in 0 0, out 1 0
m + the sum of v(i) * (in(i) - out(i)) - out(0):
  2 + 1 * (0 - 0) - 1 = 1: the place permits it
";
    assert!(page.ends_with(lines), "{page}");
    let page = show(&changed(42, 2), "2");
    let lines = "
  term 0: event 1 after the empty word (row 0, counts 0 0): allowed, weight 1
  term 1: event 1 after 0 (row 2, counts 1 0): not allowed, weight 1
the sum of g is at most k:
  2 <= 2: holds
the sum of g * u(i) is at most k * v(i):
  event 0: 1 <= 2 * 1 = 2: holds
  event 1: 0 <= 2 * 0 = 0: holds
the sum of g * (u(i) + [f = i]) is at least k * (v(i) + [e = i]):
  event 0: 1 >= 2 * 1 = 2: fails
  event 1: 2 >= 2 * 1 = 2: holds
";
    assert!(page.ends_with(lines), "{page}");
    // The head has the verdict alone; what was read before it can be seen, too.
    let page = show(&changed(42, 2), "0");
    let head: Vec<&str> = page.lines().take(4).collect();
    assert_eq!(head[0], "file: 512 bytes, 1 block; a bundle of 53 bytes");
    assert!(head[1].starts_with("refused 12 2: certificate 2: "));
    assert_eq!(head[2], "");
    assert!(head[3].starts_with("certificate 0 at 29: "));
}

/// All of what is listed of a bundle that is refused in its words, in its places or
/// in its certificates.
#[test]
fn partial_listings() {
    let (_, body) = page_of("partial_words", &changed(6, 2));
    let words = [
        "n = 2: events 0 to 1",
        "1 of 2 words, 1 event",
        "  word 0 at 2: 1",
        "2 rows so far",
        "  row 0: counts 0 0, after the empty word; traffic 1; allowed 1",
        "  row 1: counts 0 1, after 1; traffic 1; allowed none",
        "here the reading ends, at offset 6 of 53",
    ];
    assert_eq!(body, words);

    let whole: Vec<&str> = BODY_OF_A.lines().skip(1).collect();
    let (_, body) = page_of("partial_places", &SAMPLE_A[..20]);
    assert_eq!(body[..10], whole[..10]);
    let places = [
        "1 of 2 places",
        "  place 0 at 9: m 1, in 1 0, out 1 1",
        "here the bundle ends, inside m of place 1",
    ];
    assert_eq!(body[10..], places);

    let (_, body) = page_of("partial_certificates", &changed(30, 1));
    assert_eq!(body[..13], whole[..13]);
    let certificates = [
        "1 of 6 certificates",
        "  certificate 0 at 29: event 0 after 1 (row 1): kind 0, place 1, surplus 1: fails",
        "here the reading ends, at offset 31 of 53",
    ];
    assert_eq!(body[13..], certificates);
}

/// What is listed of a bundle that is cut: all that comes before.
#[test]
fn cut_bundles() {
    let whole: Vec<&str> = BODY_OF_A.lines().skip(1).collect();
    for length in 1..SAMPLE_A.len() {
        let (head, body) = page_of("cut_bundles", &SAMPLE_A[..length]);
        let first = format!("file: 512 bytes, 1 block; a bundle of {length} byte");
        assert_eq!(head[0].trim_end_matches('s'), first);
        // Each part that ends before the cut is listed as in the whole.
        for (part, end) in [
            ("n = 2: events 0 to 1", 1),
            ("  word 0 at 2: 1", 4),
            ("  word 1 at 4: 0 0 1", 8),
            ("5 rows", 8),
            ("  place 0 at 9: m 1, in 1 0, out 1 1", 19),
            ("  place 1 at 19: m 2, in 0 0, out 1 0", 29),
            (whole[14], 31),
            (whole[16], 47),
            (whole[18], 51),
        ] {
            let is_listed = body.iter().any(|line| line == part);
            assert_eq!(is_listed, end <= length, "{part} of {length}");
        }
        let foot = body.last().expect("a foot");
        assert!(
            foot.starts_with("here the bundle ends, "),
            "{length}: {foot}"
        );
    }
}

#[test]
fn lengths_of_files() {
    let directory = directory("lengths_of_files");
    for (length, size, words) in [
        (0, "no bytes", "the file is empty"),
        (1, "1 byte", "the file has 1 byte, less than a block of 512"),
        (
            1_025,
            "1025 bytes",
            "the file has 1025 bytes: 2 blocks of 512, and 1 byte more",
        ),
        (
            65_537,
            "more than 65536 bytes",
            "the file has more than 65536 bytes, the most that a file may have",
        ),
        (
            1_000_000,
            "more than 65536 bytes",
            "the file has more than 65536 bytes, the most that a file may have",
        ),
    ] {
        fs::write(directory.join("file"), vec![7; length]).expect("the file is written");
        let advice = "what to do: it was cut, or is no sealed file: have it sent again";
        let page = format!("file: {size}\nrefused 1 0: {words}\n{advice}\n");
        assert_eq!(
            hov_in(&directory, &["show", "file"]),
            Done::new(1, &page, "")
        );
    }
}

#[test]
fn trouble() {
    let done = hov(&["show", "missing"]);
    assert_eq!(
        done,
        Done::new(3, "", "hov: missing: No such file or directory\n")
    );
    let done = hov(&["show", "samples", "--certificate", "1"]);
    assert_eq!(done, Done::new(3, "", "hov: samples: Is a directory\n"));
    for arguments in [
        vec!["show", A],
        vec!["show", A, "--certificate", "1"],
        vec!["--help"],
    ] {
        let full = File::create("/dev/full").expect("a device that is full");
        let mut command = command(&arguments);
        let done = Done::of(command.stdout(full).output().expect("hov runs"));
        let error = "hov: standard output: No space left on device\n";
        assert_eq!(done, Done::new(3, "", error), "{arguments:?}");
    }
    assert_eq!(hov_unread(&["show", A]), Done::new(3, "", ""));
}

/// A name is shown without what could break the line.
#[test]
fn harmful_name() {
    let directory = directory("show_harmful_name");
    fs::write(directory.join("a\nb\x1b"), build(&SAMPLE_A)).expect("the file is written");
    let page = format!("{HEAD_OF_A}{BODY_OF_A}").replace(A, "a?b?");
    assert_eq!(
        hov_in(&directory, &["show", "a\nb\x1b"]),
        Done::new(0, &page, "")
    );
    let done = hov_in(&directory, &["show", "a\nb\x1b", "--certificate", "6"]);
    let error = "hov: a?b?: no certificate 6: it has 6 certificates\n";
    assert_eq!(done, Done::new(2, "", error));
}
