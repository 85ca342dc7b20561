//! The sample writer for modellers, `examples/write_bundle.py`, and the mistake with
//! the order of bytes that docs/FORMAT.md speaks of.

mod writing;

use differential::bundles::SAMPLE_A;
use differential::limits::MIDDLE;
use differential::logs::random_word;
use differential::nets::small_log;
use differential::rng::Rng;
use differential::run::Run;
use hovmekhar::{Refusal, Screened, Tally};
use reference::log_rows;
use std::fs;
use writing::{arguments, files_in, has_python, run_writer, write_and_judge, Scratch};

#[test]
fn known_logs_are_written() {
    if !has_python() {
        return;
    }
    let directory = Scratch::new("known_logs_are_written");
    let judged = |n, words: &[&[u8]]| {
        let words: Vec<Vec<u8>> = words.iter().map(|word| word.to_vec()).collect();
        let counts = write_and_judge(&directory, n, &words);
        [
            counts.rows,
            counts.allowed,
            counts.by_place,
            counts.by_weights,
        ]
    };
    // Case A, with as many places as docs/FORMAT.md says, and case I.
    assert_eq!(judged(2, &[&[1], &[0, 0, 1]]), [5, 4, 5, 1]);
    let file = fs::read(directory.join("written.sealed")).expect("a file");
    let bundle = hovmekhar::open_vec(&file).expect("a bundle");
    assert_eq!(bundle[8], 2);
    assert_eq!(judged(4, &[&[0, 1, 2], &[1, 0, 3]]), [6, 6, 18, 0]);
    // No word, and the empty word.
    assert_eq!(judged(1, &[]), [1, 0, 1, 0]);
    assert_eq!(judged(12, &[]), [1, 0, 12, 0]);
    assert_eq!(judged(1, &[&[]]), [1, 0, 1, 0]);
    assert_eq!(judged(3, &[&[], &[2], &[]]), [2, 1, 5, 0]);
    // One event that is repeated, and one that is too, but is not the only one.
    assert_eq!(judged(1, &[&[0; 100]]), [101, 100, 1, 0]);
    assert_eq!(judged(12, &[&[11; 5]]), [6, 5, 67, 0]);
    // A word that is there twice, and events of two digits.
    assert_eq!(judged(12, &[&[10, 11], &[10, 11]]), [3, 2, 34, 0]);
}

/// The log of a sample has many steps that no place refuses.
#[test]
fn sample_log_is_written() {
    if !has_python() {
        return;
    }
    let sample = MIDDLE.certified(&mut Rng::new(0));
    let directory = Scratch::new("sample_log_is_written");
    let counts = write_and_judge(&directory, sample.bundle.n, &sample.bundle.words);
    // Which steps a place can refuse is a fact about the log.
    assert_eq!(counts.by_place, sample.counts.by_place);
    assert_eq!(counts.by_weights, sample.counts.by_weights);
}

#[test]
fn random_logs_are_written() {
    if !has_python() {
        return;
    }
    let mut run = Run::start("random_logs_are_written");
    let directory = Scratch::new("random_logs_are_written");
    let mut by_weights = 0;
    for _ in 0..run.cases(25) {
        let (n, words) = loop {
            let (n, words) = small_log(&mut run.rng);
            // So few wrong continuations that a place for each is not too many.
            if n * log_rows(n, &words).len() <= 64 {
                break (n, words);
            }
        };
        by_weights += write_and_judge(&directory, n, &words).by_weights;
    }
    println!("{by_weights} certificates with weights");
}

#[test]
fn wrong_arguments_write_nothing() {
    if !has_python() {
        return;
    }
    let directory = Scratch::new("wrong_arguments_write_nothing");
    let refused = |arguments: &[&str], status: i32, sentence: &str| {
        let done = run_writer(&directory.join("out"), arguments);
        let errors = String::from_utf8_lossy(&done.stderr);
        assert_eq!(done.status.code(), Some(status), "{arguments:?}: {errors}");
        assert!(done.stdout.is_empty(), "{arguments:?}");
        assert_eq!(errors.lines().count(), 1, "{arguments:?}: {errors}");
        assert!(errors.contains(sentence), "{arguments:?}: {errors}");
        assert_eq!(files_in(&directory), 0, "{arguments:?}");
    };

    for wrong in [
        &[] as &[&str],
        &["x"],
        &[""],
        &["-1"],
        &["+1"],
        &["1 "],
        &["٣"],
        &["1234"],
    ] {
        refused(wrong, 2, "usage: write_bundle.py OUT N WORD...");
    }
    for word in [
        ",", "0,", ",0", "0,,1", "0 1", " 0", "-1", "+1", "x", "0,x", "0\n", "٣", "1234", "..",
        "0..", ".0", "0.1", "0.,1", "0,.", "0.\n",
    ] {
        refused(&["2", "0", word], 2, "no word of events joined by commas");
    }
    refused(&["2", "0,1,2"], 2, "an event is not below 2: '0,1,2'");
    refused(&["12", "12"], 2, "an event is not below 12");

    let zeros = |count: usize| vec!["0"; count].join(",");
    let ones = |count: usize| vec!["1"; count].join(",");
    refused(&["0"], 1, "the event count: 0");
    refused(&["13"], 1, "the event count: 13");
    refused(&["1", &zeros(256)], 1, "events of a word: 256");
    refused(&[&["1"], [""; 256].as_slice()].concat(), 1, "words: 256");
    let long = zeros(205);
    refused(
        &["1", &long, &long, &long, &long, &long],
        1,
        "events of the log: 1025",
    );
    refused(&["2", &zeros(200), &ones(56)], 1, "rows: 257");
}

/// Events 0 to 4, each alone so often, and then event 5; and one of each.
fn each_alone(times: [usize; 5]) -> Vec<Vec<u8>> {
    let alone = (0u8..).zip(times).map(|(event, times)| {
        let mut word = vec![event; times];
        word.push(5);
        word
    });
    alone.chain([vec![0, 1, 2, 3, 4]]).collect()
}

/// Logs that are within the limits, but not what they need: the writer says what is
/// too large, and writes nothing.
#[test]
fn what_does_not_fit_is_told() {
    if !has_python() {
        return;
    }
    let directory = Scratch::new("what_does_not_fit_is_told");
    let refused = |n: usize, words: &[Vec<u8>], sentence: &str| {
        let done = run_writer(&directory.join("out"), &arguments(n, words, &[]));
        let errors = String::from_utf8_lossy(&done.stderr);
        assert_eq!(done.status.code(), Some(1), "{errors}");
        assert!(errors.contains(sentence), "{errors}");
        assert_eq!(files_in(&directory), 0);
    };

    // Event 5 may also come first. After one of each event only weights of 1/7, 1/8
    // and so on show that no place refuses it: k is a multiple of all these numbers.
    let mut words = each_alone([7, 8, 9, 11, 13]);
    words.push(vec![5]);
    refused(6, &words, "k: 72072, and at most 65535");

    // Words without any order need a place for almost each step.
    let mut rng = Rng::new(0);
    let words: Vec<Vec<u8>> = (0..12).map(|_| random_word(&mut rng, 12, 6..=6)).collect();
    refused(12, &words, "places: ");
}

/// The place that the simplex method finds has the number 72,072 here. Rounded to
/// two bytes, it does as well.
#[test]
fn large_places_are_rounded() {
    if !has_python() {
        return;
    }
    let directory = Scratch::new("large_places_are_rounded");
    write_and_judge(&directory, 6, &each_alone([7, 8, 9, 11, 13]));
    let file = fs::read(directory.join("written.sealed")).expect("a file");
    let bundle = hovmekhar::open_vec(&file).expect("a bundle");
    assert!(bundle.windows(2).any(|bytes| bytes == [255, 255]));
}

#[test]
fn an_unwritten_file_is_told() {
    if !has_python() {
        return;
    }
    let directory = Scratch::new("an_unwritten_file_is_told");
    let inside = directory.join("inside");
    fs::create_dir(&inside).expect("a directory");
    for out in [directory.join("missing/out"), inside] {
        let done = run_writer(&out, &["1", "0"]);
        assert_eq!(done.status.code(), Some(3), "{}", out.display());
        assert!(done.stdout.is_empty() && !done.stderr.is_empty());
        assert_eq!(files_in(&directory), 1, "no part of a file is left");
    }
}

/// The bundle with the two bytes of the numbers at these offsets exchanged.
fn exchanged(bundle: &[u8], numbers: &[usize]) -> Vec<u8> {
    let mut bundle = bundle.to_vec();
    for &offset in numbers {
        bundle.swap(offset, offset + 1);
    }
    bundle
}

fn judged(bundle: &[u8]) -> Result<Tally, Refusal> {
    hovmekhar::judge_vec(bundle).map(|(counts, _)| counts)
}

/// With numbers below 256, places and weights whose bytes are in the wrong order
/// are multiplied by 256, and no verdict shows it; only the shortfalls do.
#[test]
fn byte_order_can_stay_unseen() {
    let counts = Tally {
        rows: 5,
        allowed: 4,
        by_place: 5,
        by_weights: 1,
    };
    let places: Vec<usize> = (9..29).step_by(2).collect();
    let k_and_weights = [34, 40, 45];
    let both = [places.as_slice(), &k_and_weights].concat();
    for (offsets, shortfall) in [
        (&[] as &[usize], 1),
        (&places, 256),
        (&k_and_weights, 1),
        (&both, 256),
    ] {
        let bundle = exchanged(&SAMPLE_A, offsets);
        assert_eq!(judged(&bundle), Ok(counts), "{offsets:?}");
        let stopped = |position, place| Screened::Stopped {
            position,
            place,
            shortfall,
        };
        for (word, known) in [
            ([0, 1].as_slice(), Screened::Permitted),
            (&[1, 0], stopped(1, 0)),
            (&[0, 0, 0], stopped(2, 1)),
        ] {
            let screened = hovmekhar::screen(&bundle, word);
            assert_eq!(screened, Ok(known), "{offsets:?}, {word:?}");
        }
    }
    // Only some of the numbers: it is another net, or the weights are too small.
    let refused = |number, spot| Err(Refusal { number, spot });
    assert_eq!(judged(&exchanged(&SAMPLE_A, &[15])), refused(10, 0));
    assert_eq!(judged(&exchanged(&SAMPLE_A, &[34])), refused(12, 2));
    // A row's number is never multiplied: row 3 would be row 768.
    assert_eq!(judged(&exchanged(&SAMPLE_A, &[42])), refused(7, 42));
}

/// With a number of 256 or more it is another net.
#[test]
fn byte_order_shows_in_large_numbers() {
    // The word 0, and a place with m = 300 and out(0) = 200: event 0 occurs once.
    let bundle = [1, 1, 1, 0, 1, 44, 1, 0, 0, 200, 0, 0, 0];
    let counts = Tally {
        rows: 2,
        allowed: 1,
        by_place: 1,
        by_weights: 0,
    };
    assert_eq!(judged(&bundle), Ok(counts));
    // m = 11,265 and out(0) = 51,200.
    let misfit = Refusal {
        number: Refusal::PLACE_MISFIT,
        spot: 0,
    };
    assert_eq!(judged(&exchanged(&bundle, &[5, 7, 9])), Err(misfit));
}
