//! `hov convert`.

#[path = "support/rewriting.rs"]
mod rewriting;
mod support;

use differential::bundle_faults::BundleFault;
use differential::bundles::{SAMPLE_A, SAMPLE_A_NEW, SAMPLE_E, SAMPLE_NEW};
use differential::editions::{in_new, in_old, small_certified};
use differential::faults::BlockFault;
use differential::files::{build, MAX_BUNDLE_SIZE};
use differential::limits::{LARGEST, LARGEST_FITTING};
use differential::rng::Rng;
use differential::run::{Outcome, Run};
use rewriting::{read, write, Refused};
use support::{directory, hov, hov_in, hov_with, names_in, refused, Done};

/// The line that is told of a file that is written.
fn told(edition: &str, bundle: &[u8], result: &[u8]) -> String {
    if bundle == result {
        return format!("copied: in the {edition} edition already\n");
    }
    let (before, now) = (bundle.len(), result.len());
    format!("converted to the {edition} edition: the bundle has {now} bytes, and had {before}\n")
}

/// What is written, and what is told.
#[test]
fn lines_and_files() {
    let directory = directory("convert_lines_and_files");
    let e_new = [[129].as_slice(), &SAMPLE_E[1..]].concat();
    let to_new = "converted to the new edition: the bundle has 56 bytes, and had 53\n";
    let to_old = "converted to the old edition: the bundle has 53 bytes, and had 56\n";
    let same_length = "converted to the new edition: the bundle has 11 bytes, and had 11\n";
    let is_new = "copied: in the new edition already\n";
    let is_old = "copied: in the old edition already\n";
    for (edition, bundle, expected, line) in [
        ("new", SAMPLE_A.as_slice(), SAMPLE_A_NEW.as_slice(), to_new),
        ("old", &SAMPLE_A_NEW, &SAMPLE_A, to_old),
        ("new", &SAMPLE_E, &e_new, same_length),
        ("new", &SAMPLE_A_NEW, &SAMPLE_A_NEW, is_new),
        ("new", &SAMPLE_NEW, &SAMPLE_NEW, is_new),
        ("old", &SAMPLE_A, &SAMPLE_A, is_old),
    ] {
        write(directory.join("in"), &build(bundle));
        // The option stands anywhere.
        for arguments in [
            ["convert", "--to", edition, "in", "out"],
            ["convert", "in", "--to", edition, "out"],
            ["convert", "in", "out", "--to", edition],
        ] {
            let done = hov_in(&directory, &arguments);
            assert_eq!(done, Done::new(0, "", line), "{bundle:?}");
            assert!(read(directory.join("out")) == build(expected), "{bundle:?}");
        }
        assert!(read(directory.join("in")) == build(bundle), "{bundle:?}");
    }
    assert_eq!(names_in(&directory), ["in", "out"]);
}

/// The output may be the input, there and back.
#[test]
fn output_is_input() {
    let directory = directory("convert_output_is_input");
    let path = directory.join("file");
    write(&path, &build(&SAMPLE_A));
    for (edition, bundle, result) in [
        ("new", SAMPLE_A.as_slice(), SAMPLE_A_NEW.as_slice()),
        ("new", &SAMPLE_A_NEW, &SAMPLE_A_NEW),
        ("old", &SAMPLE_A_NEW, &SAMPLE_A),
        ("old", &SAMPLE_A, &SAMPLE_A),
    ] {
        let done = hov_in(&directory, &["convert", "--to", edition, "file", "./file"]);
        assert_eq!(done, Done::new(0, "", &told(edition, bundle, result)));
        assert!(read(&path) == build(result));
    }
    assert_eq!(names_in(&directory), ["file"]);
}

/// The file alone is on standard output, so that it can be judged.
#[test]
fn standard_input_and_output() {
    let arguments = ["convert", "--to", "new", "-", "-"];
    let (status, output, errors) = hov_with(&arguments, &build(&SAMPLE_A));
    let line = told("new", &SAMPLE_A, &SAMPLE_A_NEW);
    assert_eq!((status, errors), (0, line));
    assert!(output == build(&SAMPLE_A_NEW));
    let (status, judged, errors) = hov_with(&["judge", "-"], &output);
    assert_eq!((status, errors.as_str()), (0, ""));
    assert_eq!(judged, b"accepted 5 4 5 1 -\n");
}

/// The refusals of opening and of judging, and those of a result that there is not.
#[test]
fn refusals() {
    let mut second = SAMPLE_A_NEW.to_vec();
    // Of the words 1 and 0 0 1 the second is completed; the first place does not obey it.
    second[6] = 1;
    let empty_words = [129, 3, 0, 0, 0, 1, 0, 1, 1, 0, 0, 0, 0, 1, 0, 0, 0];
    let longest = LARGEST.certified(&mut Rng::new(0)).bundle.bytes();
    let disobeys: Refused = (build(&second), 20, 0);
    for (edition, others) in [
        ("new", vec![(build(&longest), 4, 0), disobeys.clone()]),
        (
            "old",
            vec![
                (build(&SAMPLE_NEW), 21, 0),
                (build(&empty_words), 21, 1),
                disobeys,
            ],
        ),
    ] {
        let name = format!("convert_refusals_{edition}");
        rewriting::refusals(&name, &["convert", "--to", edition], others);
    }
}

/// The largest file that can be converted, there and back.
#[test]
fn largest_file() {
    let old = LARGEST_FITTING.certified(&mut Rng::new(0)).bundle;
    let new = in_new(&old).expect("it fits");
    assert_eq!(new.len(), MAX_BUNDLE_SIZE);
    let old = old.bytes();
    for (edition, bundle, result) in [("new", &old, &new), ("old", &new, &old)] {
        let done = hov_with(&["convert", "--to", edition, "-", "-"], &build(bundle));
        let line = told(edition, bundle, result);
        assert!(done == (0, build(result), line), "{edition}");
    }
}

/// Accepted files of either edition, and refused ones.
#[test]
fn generated_files() {
    let mut run = Run::start("hov_convert_generated_files");
    let convert = |edition, file: &[u8]| hov_with(&["convert", "--to", edition, "-", "-"], file);
    let expected = |edition, bundle: &[u8], outcome: Outcome<Vec<u8>>| match outcome {
        Ok(result) => (0, build(&result), told(edition, bundle, &result)),
        Err(owed) => (1, vec![], refused(owed.number, owed.spot, "-")),
    };
    for case in 0..run.cases(40) {
        let certified = small_certified(&mut run.rng);
        let bundle = certified.bundle.bytes();
        let fault = BundleFault::ALL[case % BundleFault::ALL.len()];
        let faulty = fault.bytes(&mut run.rng, &certified);
        let fault = BlockFault::ALL[case % BlockFault::ALL.len()];
        let (damaged, owed) = fault.file(&mut run.rng);
        let results = [in_new(&certified.bundle), in_old(&certified.bundle)];
        for (edition, outcome) in ["new", "old"].into_iter().zip(results) {
            run.count(outcome.as_ref().map_or_else(|owed| owed.number, |_| 0));
            let expected_here = expected(edition, &bundle, outcome);
            assert_eq!(convert(edition, &build(&bundle)), expected_here, "{run}");
            if let Some((bytes, owed)) = &faulty {
                run.count(owed.number);
                let expected_here = expected(edition, bytes, Err(*owed));
                assert_eq!(convert(edition, &build(bytes)), expected_here, "{run}");
            }
            run.count(owed.number);
            let expected_here = expected(edition, &[], Err(owed));
            assert_eq!(convert(edition, &damaged), expected_here, "{run}");
        }
    }
    let blocks = [(17, 20), (18, 16), (2, 16)];
    run.finish(&[&[(0, 50), (7, 8), (13, 2), (21, 2)], blocks.as_slice()].concat());
}

/// The verdict on a converted sample has the counts of the sample.
#[test]
fn samples() {
    let directory = directory("convert_samples");
    for (name, edition, counts) in [
        ("a.sealed", "new", "5 4 5 1"),
        ("e.sealed", "new", "1 0 1 0"),
        ("several.sealed", "new", "43 42 177 39"),
        ("sales.sealed", "new", "4 3 7 2"),
        ("several.sealed", "old", "43 42 177 39"),
    ] {
        let sample = support::sample(name);
        let output = directory.join(name);
        let mut arguments = ["convert", "--to", edition].map(AsRef::as_ref).to_vec();
        arguments.extend([sample.as_os_str(), output.as_os_str()]);
        let done = hov(&arguments);
        assert_eq!((done.status, done.output.as_str()), (0, ""), "{name}");
        let judged = hov_in(&directory, &["judge", name]);
        let line = format!("accepted {counts} {name}\n");
        assert_eq!(judged, Done::new(0, &line, ""), "{name}");
    }
}

/// Trouble with the input or the output: nothing is told of editions.
#[test]
fn trouble() {
    for edition in ["new", "old"] {
        let name = format!("convert_trouble_{edition}");
        let command = ["convert", "--to", edition];
        rewriting::trouble(&name, &command, &build(&SAMPLE_A));
    }
    // A longer input is not read to its end.
    let (status, output, errors) =
        hov_with(&["convert", "--to", "old", "-", "-"], &vec![0; 1 << 20]);
    assert_eq!((status, output), (1, vec![]));
    assert_eq!(errors, refused(1, 0, "-"));
}
