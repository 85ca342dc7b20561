//! `hov show` explains every verdict of the library, whatever the file: in process,
//! on generated files, with its words checked by another reading of the rules.

#[path = "support/oracle.rs"]
mod oracle;

use cli::show::Look;
use differential::bundle_faults::{altered, BundleFault};
use differential::bundles::Field;
use differential::faults::{BlockFault, LengthFault};
use differential::files::{build, Filling, BLOCK, MAX_BUNDLE_SIZE};
use differential::judging::reference_verdict;
use differential::limits::{LARGEST, MIDDLE, MOST_WORDS};
use differential::nets::{small_certified, Certified};
use differential::rng::Rng;
use differential::run::Run;
use differential::sales::{LARGEST_NEW, MIDDLE_NEW};
use reference::{log_rows, Refusal, Tally};

/// Looks at a file: the verdict is the reference's, and it is explained. Returns the
/// lines of its page, with the refusal if there is one.
fn explained(run: &mut Run, file: &[u8]) -> (Vec<String>, Option<Refusal>) {
    let look = Look::at(file);
    let owed = reference_verdict(file);
    let refusal = look.verdict().err();
    let refusal = refusal.map(|refusal| Refusal {
        number: refusal.number,
        spot: refusal.spot,
    });
    assert_eq!(refusal, owed.err(), "{run}");
    if let (Ok(ours), Ok(theirs)) = (look.verdict(), owed) {
        let ours = (ours.rows, ours.allowed, ours.by_place, ours.by_weights);
        let theirs = (
            theirs.rows,
            theirs.allowed,
            theirs.by_place,
            theirs.by_weights,
        );
        assert_eq!(ours, theirs, "{run}");
    }
    assert!(
        look.is_explained(),
        "{owed:?} is not explained: {file:?}, {run}"
    );
    let page = look.page("name");
    assert!(!page.contains("explain"), "{page}, {run}");
    let lines: Vec<String> = page.lines().map(String::from).collect();
    assert!(lines[0].starts_with("name: "), "{page}, {run}");
    let verdict = match refusal {
        None => "accepted: ".into(),
        Some(Refusal { number, spot }) => format!("refused {number} {spot}: "),
    };
    assert!(lines[1].starts_with(&verdict), "{page}, {run}");
    run.count(refusal.map_or(0, |refusal| refusal.number));
    (lines, refusal)
}

/// Looks at a bundle like [`explained`], and checks the words for 10, 20, 11 and 12.
fn explained_bundle(run: &mut Run, bundle: &[u8]) -> (Vec<String>, Option<Refusal>) {
    let (lines, refusal) = explained(run, &build(bundle));
    if let Some(
        refused @ Refusal {
            number: 10..=12 | 20,
            ..
        },
    ) = refusal
    {
        let words = oracle::net_words(bundle, refused);
        expect_words(run, &lines, refused, &words);
    }
    (lines, refusal)
}

fn expect_words(run: &Run, lines: &[String], refusal: Refusal, words: &str) {
    let Refusal { number, spot } = refusal;
    assert_eq!(
        lines[1],
        format!("refused {number} {spot}: {words}"),
        "{run}"
    );
}

/// A bundle to make a fault in: many of them have certificates of both kinds.
fn sound(run: &mut Run) -> Certified {
    for _ in 0..10 {
        let certified = small_certified(&mut run.rng);
        if certified.counts.by_place > 0 && certified.counts.by_weights > 0 {
            return certified;
        }
    }
    small_certified(&mut run.rng)
}

/// The head of the page of an accepted bundle, with the empty line behind it.
fn head(certified: &Certified, file: &[u8]) -> String {
    let blocks = oracle::count(file.len() / BLOCK, "block");
    let length = certified.bundle.bytes().len();
    let Tally {
        rows,
        allowed,
        by_place,
        by_weights,
    } = certified.counts;
    let rows = oracle::count(rows, "row");
    let allowed = oracle::count(allowed, "allowed step");
    let by_place = oracle::count(by_place, "certificate");
    format!(
        "name: {} bytes, {blocks}; a bundle of {length} bytes\n",
        file.len()
    ) + &format!("accepted: {rows}, {allowed}, {by_place} of kind 0, {by_weights} of kind 1\n\n")
}

/// The whole page of an accepted bundle, and each of its certificates in full.
#[test]
fn accepted_bundles() {
    let mut run = Run::start("accepted_bundles");
    for _ in 0..run.cases(300) {
        let certified = sound(&mut run);
        let file = build(&certified.bundle.bytes());
        let (lines, refusal) = explained(&mut run, &file);
        assert_eq!(refusal, None, "{run}");
        let head = head(&certified, &file);
        let page = head.clone() + &oracle::listing(&certified);
        assert_eq!(lines.join("\n") + "\n", page, "{run}");

        let look = Look::at(&file);
        let count = certified.bundle.certificates.len();
        for number in 0..count {
            let page = look.certificate_page("name", number).expect("it is there");
            let body = oracle::certificate(&certified, number);
            assert_eq!(page, head.clone() + &body, "{run}");
            let is_kind_0 = body.contains("\nkind 0");
            run.note(if is_kind_0 { "kind 0" } else { "kind 1" });
            if body.contains("\n  pair 0: ") {
                run.note("pairs");
            }
        }
        assert!(look.certificate_page("name", count).is_err(), "{run}");
    }
    let kinds = [("kind 0", 1_000), ("kind 1", 200), ("pairs", 100)];
    run.finish_with_classes(&[(0, 300)], &kinds);
}

/// Each way for a bundle to be wrong, with its words.
#[test]
fn one_fault() {
    let mut run = Run::start("hov_show_one_fault");
    for fault in BundleFault::ALL {
        let mut made = 0;
        while made < run.cases(60) {
            let certified = sound(&mut run);
            for _ in 0..5 {
                let Some((bytes, refused)) = fault.bytes(&mut run.rng, &certified) else {
                    continue;
                };
                let (lines, refusal) = explained_bundle(&mut run, &bytes);
                assert_eq!(refusal, Some(refused), "{fault:?}, {run}");
                check_fault(&mut run, fault, &certified, &bytes, refused, &lines);
                made += 1;
            }
        }
    }
    run.finish(&[
        (6, 60),
        (7, 12 * 60),
        (10, 4 * 60),
        (11, 2 * 60),
        (12, 14 * 60),
        (13, 60),
        (20, 2 * 60),
    ]);
}

/// Checks what is particular to a fault.
fn check_fault(
    run: &mut Run,
    fault: BundleFault,
    certified: &Certified,
    bytes: &[u8],
    refused: Refusal,
    lines: &[String],
) {
    let says = |words: &str| assert!(lines[1].contains(words), "{fault:?}: {lines:?}, {run}");
    match fault {
        BundleFault::Cut | BundleFault::Value(_) => {
            let words = oracle::field_words(certified, bytes, refused);
            expect_words(run, lines, refused, &words);
        }
        BundleFault::StepNotAllowed => says(", which is not allowed"),
        BundleFault::PairPartial => says(", which is partial"),
        BundleFault::SumTooLarge => says(": the sum of g is "),
        BundleFault::BeforeTooLarge => says(": the sum of g * u("),
        BundleFault::AfterTooSmall => says(": the sum of g * (u("),
        BundleFault::BytesFollow => {
            let (offset, length) = (refused.spot, bytes.len());
            let more = oracle::count(length - offset, "byte");
            let words = format!("{more} behind the last certificate, from offset {offset} on");
            expect_words(run, lines, refused, &words);
        }
        _ => {}
    }
    // Up to the places nothing is changed by these, so all of it is listed as ever.
    if let BundleFault::Value(Field::K | Field::TermRow) | BundleFault::WeightMore = fault {
        let listing = oracle::listing(certified);
        let (before, _) = listing
            .split_once("\n  certificate 0 ")
            .expect("a certificate");
        let before: Vec<&str> = before.lines().collect();
        let before = &before[..before.len() - 1];
        assert_eq!(lines[4..4 + before.len()], *before, "{run}");
    }
}

/// Several changes to a bundle that was accepted.
#[test]
fn altered_bundles() {
    let mut run = Run::start("hov_show_altered_bundles");
    for _ in 0..run.cases(600) {
        let certified = sound(&mut run);
        for _ in 0..20 {
            let bytes = altered(&mut run.rng, &certified.bundle);
            explained_bundle(&mut run, &bytes);
        }
    }
    run.finish(&[
        (0, 100),
        (6, 500),
        (7, 1_000),
        (10, 300),
        (11, 100),
        (12, 300),
        (13, 100),
    ]);
}

/// One byte of a bundle set to any value, wherever it is.
#[test]
fn each_byte_of_a_bundle() {
    let mut run = Run::start("each_byte_of_a_bundle");
    for _ in 0..run.cases(30) {
        let bytes = sound(&mut run).bundle.bytes();
        for at in 0..bytes.len().min(400) {
            let mut changed = bytes.clone();
            changed[at] = run.rng.below(256) as u8;
            explained_bundle(&mut run, &changed);
        }
    }
    run.finish(&[(7, 500), (12, 100)]);
}

/// Logs that are too long, or have too many rows.
#[test]
fn long_logs() {
    let mut run = Run::start("long_logs");
    for case in 0..run.cases(60) {
        let n = run.rng.within(1..=12);
        let longest = if case % 2 == 0 { 255 } else { 60 };
        let kept = run.rng.within(1..=n);
        let (mut words, mut events, mut offset) = (Vec::new(), 0, 2);
        let mut bytes = vec![n as u8, 255];
        let words_of_refusal = loop {
            let length = run.rng.below(longest + 1);
            let word: Vec<u8> = (0..length).map(|_| run.rng.below(kept) as u8).collect();
            bytes.push(length as u8);
            bytes.extend(&word);
            words.push(word);
            let (number, at) = (words.len() - 1, offset);
            if events + length > 1_024 {
                let all = events + length;
                let length = oracle::count(length, "event");
                break format!("refused 8 {at}: word {number} at {at} has {length}: with the {events} before it {all}, and 1024 are the most");
            }
            let rows = log_rows(n, &words).len();
            if rows > 256 {
                break format!("refused 9 {at}: with word {number} at {at} the log has {rows} rows, and 256 are the most");
            }
            events += length;
            offset += 1 + length;
        };
        let (lines, _) = explained(&mut run, &build(&bytes));
        assert_eq!(lines[1], words_of_refusal, "{run}");
        let read = format!(
            "{} of 255 words, {}",
            words.len() - 1,
            oracle::count(events, "event")
        );
        assert!(lines.contains(&read), "{read}: {run}");
    }
    run.finish(&[(8, 5), (9, 10)]);
}

/// What is said of the lowest block with a fault.
fn words_of(fault: BlockFault) -> &'static str {
    match fault {
        BlockFault::Number
        | BlockFault::SwappedBlocks
        | BlockFault::LostBlock
        | BlockFault::DoubledBlock
        | BlockFault::Shuffled => "its number is ",
        BlockFault::UsedBeforeLast | BlockFault::UsedInLast => "its used count is ",
        BlockFault::UnusedByte | BlockFault::UnusedByteOldSums => "its padding has ",
        BlockFault::PlainSum | BlockFault::PlainSumNotReduced => "S is ",
        BlockFault::WeightedSum | BlockFault::WeightedSumNotReduced => "W is ",
        _ => "block ",
    }
}

/// What is said of the order of the blocks, where a fault says it.
fn order_words_of(fault: BlockFault, spot: usize) -> String {
    match fault {
        BlockFault::SwappedBlocks | BlockFault::DoubledBlock | BlockFault::Shuffled => {
            "the blocks stand in the order ".into()
        }
        BlockFault::LostBlock => format!("block {spot} is missing"),
        _ => String::new(),
    }
}

/// Files of a wrong length, and files with wrong blocks: each of them is listed.
#[test]
fn faulty_files() {
    let mut run = Run::start("hov_show_faulty_files");
    for fault in LengthFault::ALL {
        for _ in 0..run.cases(20) {
            let file = fault.file(&mut run.rng);
            let (lines, refusal) = explained(&mut run, &file);
            assert_eq!(
                refusal,
                Some(Refusal { number: 1, spot: 0 }),
                "{fault:?}, {run}"
            );
            assert_eq!(lines.len(), 3, "{lines:?}, {run}");
        }
    }
    for fault in BlockFault::ALL {
        for _ in 0..run.cases(60) {
            let (file, owed) = fault.file(&mut run.rng);
            let (lines, refusal) = explained(&mut run, &file);
            assert_eq!(refusal, Some(owed), "{fault:?}, {run}");
            let mut blocks = oracle::block_lines(&file);
            if owed.number == 17 {
                blocks.extend(oracle::order_line(&file));
            }
            assert_eq!(lines[2..lines.len() - 1], blocks, "{fault:?}, {run}");
            let first = &lines[2];
            let last = &lines[lines.len() - 2];
            assert!(
                first.contains(words_of(fault)),
                "{fault:?}: {lines:?}, {run}"
            );
            let order = order_words_of(fault, owed.spot);
            assert!(last.contains(&order), "{fault:?}: {lines:?}, {run}");
        }
    }
    run.finish(&[(1, 120), (17, 5 * 60), (18, 4 * 60), (2, 4 * 60)]);
}

/// Noise in place of bundles and files: a page in any case.
#[test]
fn noise() {
    let mut run = Run::start("hov_show_noise");
    for case in 0..run.cases(4_000) {
        let length = run.rng.choose(&[1, 2, 3, 10, 100, 504, 505, 2_000]);
        let mut bytes = run.rng.bytes(length);
        // So that more than the first bytes are read.
        let small = run.rng.choose(&[1, 2, 3, 256]);
        bytes
            .iter_mut()
            .for_each(|byte| *byte = (usize::from(*byte) % small) as u8);
        bytes[0] = (run.rng.choose(&[0, 128]) + run.rng.below(14)) as u8;
        if case % 4 == 0 {
            let file = run
                .rng
                .choose(&[0, 1, 511, 512, 513, 1_024, 65_536, 65_537]);
            bytes = run.rng.bytes(file);
            explained(&mut run, &bytes);
        } else {
            explained_bundle(&mut run, &bytes);
        }
    }
    for filling in Filling::ALL {
        for length in [1, 503, 504, 505, MAX_BUNDLE_SIZE - 1, MAX_BUNDLE_SIZE] {
            let bundle = filling.bundle(&mut run.rng, length);
            explained_bundle(&mut run, &bundle);
            let mut longest_n = bundle;
            longest_n[0] = 12;
            explained_bundle(&mut run, &longest_n);
        }
    }
    // Noise has another number than 0 in its first block.
    run.finish(&[(1, 200), (17, 200), (6, 100), (7, 500), (10, 10), (12, 20)]);
}

/// The largest numbers: places and weights of 65,535 only, on the longest words.
#[test]
fn largest_numbers() {
    let mut run = Run::start("largest_numbers");
    let word = [[255].as_slice(), &[0; 255]].concat();
    for (m, puts, takes) in [
        (255, 255, 0),
        (255, 0, 255),
        (0, 255, 255),
        (0, 0, 255),
        (255, 255, 255),
    ] {
        for kind in [0, 1] {
            let mut bundle = [[2, 1].as_slice(), &word, &[1], &[m; 2]].concat();
            bundle.extend([[puts; 4], [takes; 4]].concat());
            // Event 1 after each row, and event 0 after the last: never enough bytes for
            // all of these certificates.
            match kind {
                0 => bundle.extend([0, 0].repeat(300)),
                _ => {
                    let term = [255, 0, 0, 255, 255];
                    let terms = [[1, 255, 255, 64].as_slice(), &term.repeat(64)].concat();
                    bundle.extend(terms.repeat(10));
                }
            }
            explained_bundle(&mut run, &bundle);
        }
    }
    run.finish(&[(10, 2)]);
}

/// Bundles up to the limits, and with changes.
#[test]
fn limits() {
    let mut run = Run::start("hov_show_limits");
    let mut rng = Rng::new(3);
    let old = [MIDDLE, LARGEST, MOST_WORDS].map(|size| size.certified(&mut rng));
    let new = [MIDDLE_NEW, LARGEST_NEW].map(|size| size.certified(&mut rng));
    for certified in old.into_iter().chain(new) {
        let (lines, _) = explained(&mut run, &build(&certified.bundle.bytes()));
        assert_eq!(
            lines[3..].join("\n") + "\n",
            oracle::listing(&certified),
            "{run}"
        );
        for _ in 0..run.cases(30) {
            let bytes = altered(&mut run.rng, &certified.bundle);
            if bytes.len() <= MAX_BUNDLE_SIZE {
                explained(&mut run, &build(&bytes));
            }
        }
    }
    run.finish(&[(0, 5)]);
}
