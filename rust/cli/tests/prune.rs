//! `hov prune`.

#[path = "support/rewriting.rs"]
mod rewriting;
mod support;

use differential::bundle_faults::BundleFault;
use differential::bundles::{SAMPLE_A, SAMPLE_E};
use differential::faults::{BlockFault, LengthFault};
use differential::files::build;
use differential::nets::small_certified;
use differential::pruning::{idle_count, pruned, Idle, WITHOUT_IDLE, WITH_IDLE};
use differential::run::Run;
use rewriting::{read, write};
use std::fs::File;
use support::{command, directory, hov, hov_in, hov_with, names_in, refused, Done};

const A: &str = "samples/a.sealed";

/// The line that is told of a file that is written.
fn told(dropped: usize, places: usize) -> String {
    let noun = if places == 1 { "place" } else { "places" };
    let left = places - dropped;
    format!("pruned {dropped} of {places} {noun}: {left} left\n")
}

/// Of 64 places the last is named.
fn last_of_64() -> Vec<u8> {
    let places = [0, 0, 0, 0, 1, 0].repeat(64);
    [[1, 0, 64].as_slice(), &places, &[0, 63]].concat()
}

/// What is written, and what is told.
#[test]
fn lines_and_files() {
    let directory = directory("prune_lines_and_files");
    for (bundle, expected, line) in [
        (
            WITH_IDLE.as_slice(),
            WITHOUT_IDLE.as_slice(),
            "pruned 1 of 4 places: 3 left\n",
        ),
        (
            &WITHOUT_IDLE,
            &WITHOUT_IDLE,
            "pruned 0 of 3 places: 3 left\n",
        ),
        (&SAMPLE_A, &SAMPLE_A, "pruned 0 of 2 places: 2 left\n"),
        (&SAMPLE_E, &SAMPLE_E, "pruned 0 of 1 place: 1 left\n"),
        (&last_of_64(), &SAMPLE_E, "pruned 63 of 64 places: 1 left\n"),
    ] {
        write(directory.join("in"), &build(bundle));
        let done = hov_in(&directory, &["prune", "in", "out"]);
        assert_eq!(done, Done::new(0, "", line), "{bundle:?}");
        assert!(read(directory.join("out")) == build(expected), "{bundle:?}");
        assert!(read(directory.join("in")) == build(bundle), "{bundle:?}");
    }
    assert_eq!(names_in(&directory), ["in", "out"]);
}

/// The output may be the input, and the second time nothing changes.
#[test]
fn output_is_input() {
    let directory = directory("prune_output_is_input");
    let path = directory.join("file");
    write(&path, &build(&WITH_IDLE));
    for (dropped, places) in [(1, 4), (0, 3)] {
        let done = hov_in(&directory, &["prune", "file", "./file"]);
        assert_eq!(done, Done::new(0, "", &told(dropped, places)));
        assert!(read(&path) == build(&WITHOUT_IDLE));
    }
    assert_eq!(names_in(&directory), ["file"]);
}

/// The file alone is on standard output, so that it can be judged.
#[test]
fn standard_input_and_output() {
    let (status, output, errors) = hov_with(&["prune", "-", "-"], &build(&WITH_IDLE));
    assert_eq!((status, errors), (0, told(1, 4)));
    assert!(output == build(&WITHOUT_IDLE));
    let (status, judged, errors) = hov_with(&["judge", "-"], &output);
    assert_eq!((status, errors.as_str()), (0, ""));
    assert_eq!(judged, b"accepted 6 5 6 1 -\n");
}

#[test]
fn refusals() {
    rewriting::refusals("prune_refusals", &["prune"], Vec::new());
}

/// Accepted files with idle places, and refused ones.
#[test]
fn generated_files() {
    let mut run = Run::start("hov_prune_generated_files");
    let prune = |file: &[u8]| hov_with(&["prune", "-", "-"], file);
    for case in 0..run.cases(40) {
        let mut certified = small_certified(&mut run.rng);
        let idle = run.rng.choose(&Idle::ALL);
        idle.add(&mut run.rng, &mut certified, 3);
        let bundle = &certified.bundle;
        let line = told(idle_count(bundle), bundle.places.len());
        let expected = (0, build(&pruned(bundle).bytes()), line);
        assert_eq!(prune(&build(&bundle.bytes())), expected, "{run}");
        run.count(0);

        let fault = BundleFault::ALL[case % BundleFault::ALL.len()];
        let faulty = fault.bytes(&mut run.rng, &certified);
        let file = faulty.map(|(bytes, owed)| (build(&bytes), owed));
        let fault = BlockFault::ALL[case % BlockFault::ALL.len()];
        let long = LengthFault::OneByteMore.file(&mut run.rng);
        let too_long = reference::Refusal { number: 1, spot: 0 };
        let damaged = [fault.file(&mut run.rng), (long, too_long)];
        for (file, owed) in file.into_iter().chain(damaged) {
            let line = refused(owed.number, owed.spot, "-");
            assert_eq!(prune(&file), (1, vec![], line), "{run}");
            run.count(owed.number);
        }
    }
    let blocks = [(1, 40), (17, 10), (18, 8), (2, 8)];
    run.finish(&[&[(0, 40), (7, 4), (13, 1)], blocks.as_slice()].concat());
}

/// The verdict on a pruned sample has the counts of the sample.
#[test]
fn samples() {
    let directory = directory("prune_samples");
    for (name, counts) in [
        ("a.sealed", "5 4 5 1"),
        ("e.sealed", "1 0 1 0"),
        ("several.sealed", "43 42 177 39"),
    ] {
        let sample = support::sample(name);
        let output = directory.join(name);
        let arguments = ["prune".as_ref(), sample.as_os_str(), output.as_os_str()];
        let done = hov(&arguments);
        assert_eq!((done.status, done.output.as_str()), (0, ""), "{name}");
        let judged = hov_in(&directory, &["judge", name]);
        let line = format!("accepted {counts} {name}\n");
        assert_eq!(judged, Done::new(0, &line, ""), "{name}");
    }
}

/// Trouble with the input or the output: nothing is told of places.
#[test]
fn trouble() {
    rewriting::trouble("prune_trouble", &["prune"], &build(&WITH_IDLE));
    let full = File::create("/dev/full").expect("a device that is full");
    let mut prune = command(&["prune", A, "-"]);
    let done = Done::of(prune.stdout(full).output().expect("hov runs"));
    let error = "hov: standard output: No space left on device\n";
    assert_eq!(done, Done::new(3, "", error));
    // An endless input is read until it is too long.
    let done = hov(&["prune", "/dev/zero", "-"]);
    assert_eq!(done, Done::new(1, "", &refused(1, 0, "/dev/zero")));
}
