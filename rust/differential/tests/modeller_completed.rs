//! The sample writer for modellers, `examples/write_bundle.py`, with completed words.

#[allow(dead_code)]
mod writing;

use differential::bundles::SAMPLE_NEW;
use differential::nets::marked_log;
use differential::pruning::contents;
use differential::run::Run;
use differential::sales::MIDDLE_NEW;
use reference::log_rows;
use std::fs;
use writing::{arguments, files_in, has_python, run_writer, write_and_judge_marked, Scratch};

#[test]
fn known_logs_are_written() {
    if !has_python() {
        return;
    }
    let directory = Scratch::new("known_completed_logs");
    let judged = |n, words: &[(&[u8], bool)]| {
        let marks: Vec<bool> = words.iter().map(|(_, mark)| *mark).collect();
        let words: Vec<Vec<u8>> = words.iter().map(|(word, _)| word.to_vec()).collect();
        let counts = write_and_judge_marked(&directory, n, &words, &marks);
        [
            counts.rows,
            counts.allowed,
            counts.by_place,
            counts.by_weights,
        ]
    };
    // The log of `samples/sales.sealed`.
    let sales: [(&[u8], bool); 2] = [(&[0, 1], true), (&[0, 1, 2], false)];
    assert_eq!(judged(3, &sales), [4, 3, 7, 2]);
    let file = fs::read(directory.join("written.sealed")).expect("a file");
    let bundle = hovmekhar::open_vec(&file).expect("a bundle");
    assert_eq!(bundle[..11], SAMPLE_NEW[..11]);
    // The same without the mark: then event 2 has to wait, and event 0 comes once.
    assert_eq!(
        judged(3, &sales.map(|(word, _)| (word, false))),
        [4, 3, 9, 0]
    );
    // Empty words, which ask for nothing.
    assert_eq!(judged(1, &[(&[], true)]), [1, 0, 1, 0]);
    assert_eq!(
        judged(2, &[(&[], true), (&[], false), (&[1], false)]),
        [2, 1, 3, 0]
    );
    // An event that changes nothing is permitted for ever.
    assert_eq!(judged(1, &[(&[0], true)]), [2, 1, 0, 1]);
    // A word both completed and partial, and one that begins another.
    let both: [(&[u8], bool); 3] = [(&[0, 1], false), (&[0, 1], true), (&[0], false)];
    assert_eq!(judged(2, &both), [3, 2, 3, 1]);
    let begins: [(&[u8], bool); 2] = [(&[0], true), (&[0, 1], true)];
    assert_eq!(judged(2, &begins), [3, 2, 0, 4]);
}

/// The log of a larger bundle, where weights of words are needed in each sale.
#[test]
fn sales_are_written() {
    if !has_python() {
        return;
    }
    let mut run = Run::start("sales_are_written");
    let sample = MIDDLE_NEW.certified(&mut run.rng);
    let bundle = &sample.bundle;
    let marks = bundle.marks.as_deref().expect("the new edition");
    let directory = Scratch::new("sales_are_written");
    let counts = write_and_judge_marked(&directory, bundle.n, &bundle.words, marks);
    assert_eq!(counts.by_place, sample.counts.by_place);
    assert_eq!(counts.by_weights, sample.counts.by_weights);
}

#[test]
fn random_logs_are_written() {
    if !has_python() {
        return;
    }
    let mut run = Run::start("random_completed_logs_are_written");
    let directory = Scratch::new("random_completed_logs");
    let (mut above, mut below) = (0, 0);
    for _ in 0..run.cases(40) {
        let (n, words, marks) = loop {
            let (n, words, marks) = marked_log(&mut run.rng);
            // So few wrong continuations that a place for each is not too many.
            if n * log_rows(n, &words).len() <= 64 {
                break (n, words, marks);
            }
        };
        write_and_judge_marked(&directory, n, &words, &marks);
        let file = fs::read(directory.join("written.sealed")).expect("a file");
        let bundle = contents(&hovmekhar::open_vec(&file).expect("a bundle"));
        for pair in bundle.certificates.iter().flat_map(|c| c.pairs()) {
            above += usize::from(pair.weight > 0);
            below += usize::from(pair.weight < 0);
        }
    }
    println!("{above} weights of words above 0, {below} below");
    assert!(above > 0 && below > 0, "{run}");
}

/// After one of each event and six sales, the weight of a sale is a multiple of 7, 8, 9 and
/// 11, six times: two bytes are not enough.
#[test]
fn a_weight_that_is_too_large_is_told() {
    if !has_python() {
        return;
    }
    let directory = Scratch::new("a_weight_that_is_too_large");
    let alone = (0u8..).zip([7, 8, 9, 11]).map(|(event, times)| {
        let mut word = vec![event; times];
        word.push(4);
        word
    });
    let mut words: Vec<Vec<u8>> = alone.collect();
    words.push(vec![4]);
    words.push([[0, 1, 2, 3].as_slice(), &[5; 6]].concat());
    words.push(vec![5]);
    let mut marks = vec![false; words.len()];
    *marks.last_mut().expect("a word") = true;
    let done = run_writer(&directory.join("out"), &arguments(6, &words, &marks));
    let errors = String::from_utf8_lossy(&done.stderr);
    assert_eq!(done.status.code(), Some(1), "{errors}");
    let sentence = "a weight of a word: 33264, and at most 32767 is allowed";
    assert!(errors.contains(sentence), "{errors}");
    assert_eq!(files_in(&directory), 0);
}
