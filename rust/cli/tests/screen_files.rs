//! `hov screen` on files of every kind: each refusal in its order, faults, and the cases of
//! another implementation.

mod support;

use differential::bundles::{SAMPLE_A, SAMPLE_H};
use differential::faults::BlockFault;
use differential::files::{build, MAX_BUNDLE_SIZE};
use differential::rng::Rng;
use differential::run::{Outcome, Run};
use differential::screening::{any_net, MAX_WORD_EVENTS};
use differential::vectors::{Argument, Cases};
use reference::Screened;
use std::fs;
use std::path::{Path, PathBuf};
use support::{directory, hov_in, refused, stopped, Done};

/// Where a test writes the file that it screens with.
struct Place {
    directory: PathBuf,
}

impl Place {
    /// A place of this name, which no other test has.
    fn new(name: &str) -> Self {
        let directory = directory(name);
        Self { directory }
    }

    /// `hov screen` with a file and a word.
    fn screen(&self, file: &[u8], word: &[u8]) -> Done {
        fs::write(self.directory.join("file"), file).expect("the file is written");
        let mut arguments = vec!["screen".to_string(), "file".to_string()];
        arguments.extend(word.iter().map(u8::to_string));
        hov_in(&self.directory, &arguments)
    }
}

/// What `hov screen` owes for an answer.
fn owed(answer: Outcome<Screened>, word: &[u8]) -> Done {
    match answer {
        Ok(Screened::Permitted) => Done::new(0, "permitted\n", ""),
        Ok(Screened::Stopped {
            position,
            place,
            shortfall,
        }) => {
            let line = stopped(word, [position, place, shortfall], "");
            Done::new(1, &line, "")
        }
        Err(refusal) => Done::new(1, &refused(refusal.number, refusal.spot, "file"), ""),
    }
}

/// A file and a word, and the number and spot of the refusal that they get.
type Case = (Vec<u8>, Vec<u8>, u8, usize);

/// Files that do not open: the lowest faulty block, and of one block 17, 18 and 2 in order.
fn files_that_do_not_open() -> Vec<Case> {
    let longest = build(&Rng::new(5).bytes(MAX_BUNDLE_SIZE));
    let mut second = build(&[1; 505]);
    second[512 + 4] ^= 1;
    let mut second_18 = second.clone();
    second_18[512 + 5] ^= 1;
    let mut second_17 = second_18.clone();
    second_17[512] ^= 1;
    vec![
        (vec![], vec![], 1, 0),
        (vec![0; 513], vec![0], 1, 0),
        ([longest.as_slice(), &[0]].concat(), vec![0], 1, 0),
        (vec![0; 512], vec![0], 18, 0),
        (second.clone(), vec![0], 2, 1),
        (second_18, vec![0], 18, 1),
        (second_17, vec![0], 17, 1),
        // Opening comes before the word.
        (second, vec![9; MAX_WORD_EVENTS + 1], 2, 1),
    ]
}

/// Bundles and words that are refused.
fn words_that_are_refused() -> Vec<Case> {
    let word = [[255].as_slice(), &[0; 255]].concat();
    let five = [[1, 5].as_slice(), &word.repeat(5)].concat();
    let a = build(&SAMPLE_A);
    let long = vec![9; MAX_WORD_EVENTS + 1];
    vec![
        (build(&SAMPLE_A[..10]), vec![0], 6, 9),
        (build(&[0]), vec![0], 7, 0),
        (build(&[13]), vec![0], 7, 0),
        (build(&five), vec![], 8, 1_026),
        (a.clone(), vec![0, 1, 2], 15, 2),
        (a.clone(), vec![0, 255, 2], 15, 1),
        // The bundle's refusals come before that of an event, and 14 before both.
        (build(&SAMPLE_A[..10]), vec![9], 6, 9),
        (a.clone(), long.clone(), 14, 65_535),
        (a, long[1..].to_vec(), 15, 0),
        (build(&[0]), long, 14, 65_535),
    ]
}

/// A refusal of each number that screening a file can have, and their order.
#[test]
fn refusals() {
    let place = Place::new("screen_refusals");
    let cases = [files_that_do_not_open(), words_that_are_refused()];
    for (file, word, number, spot) in cases.concat() {
        let done = place.screen(&file, &word);
        assert_eq!(done, Done::new(1, &refused(number, spot, "file"), ""));
    }
    // What follows the places is not read.
    let done = place.screen(&build(&SAMPLE_H), &[0]);
    assert_eq!(done, Done::new(0, "permitted\n", ""));
}

/// Files with a fault, in their blocks or in their bundles, against the reference.
#[test]
fn generated_faults() {
    let mut run = Run::start("hov_screen_generated_faults");
    let place = Place::new("screen_generated_faults");
    let mut bundle = vec![0; MAX_BUNDLE_SIZE];
    for case in 0..run.cases(200) {
        let (net, word) = any_net(&mut run.rng);
        let mut bytes = net.bytes();
        let file = match case % 2 {
            0 => {
                bytes.truncate(run.rng.within(1..=bytes.len() - 1));
                build(&bytes)
            }
            _ => {
                let fault = BlockFault::ALL[case / 2 % BlockFault::ALL.len()];
                fault.file(&mut run.rng).0
            }
        };
        let answer = reference::open(&file, &mut bundle)
            .and_then(|length| reference::screen(&bundle[..length], &word));
        assert_eq!(place.screen(&file, &word), owed(answer, &word), "{run}");
        run.count(answer.map_or_else(|refusal| refusal.number, |_| 0));
    }
    run.finish(&[(17, 25), (18, 20), (2, 20), (6, 80)]);
}

/// The answers of another implementation.
#[test]
fn cases_with_answers() {
    let place = Place::new("screen_cases_with_answers");
    let data = Path::new(env!("CARGO_MANIFEST_DIR")).join("../differential/tests/data/12.txt");
    let cases = Cases::read(&fs::read_to_string(data).expect("the cases"));
    let mut screened = 0;
    for case in cases.of("screen") {
        let [bundle, word] = case.arguments().map(Argument::bytes);
        if bundle.is_empty() || bundle.len() > MAX_BUNDLE_SIZE {
            continue; // No sealed file has such a bundle.
        }
        let done = place.screen(&build(&bundle), &word);
        let answer = done.output.split([':', '\n']).next().unwrap_or_default();
        let verdict = answer.strip_suffix(" file").unwrap_or(answer);
        assert_eq!(verdict, case.answer, "{done:?}");
        screened += 1;
    }
    assert_eq!(screened, 72);
}
