//! `hov screen` with two files.

mod support;

use differential::bundles::{five_long_words, SAMPLE_A, SAMPLE_H};
use differential::files::build;
use differential::run::Run;
use differential::screening::{two_nets, Kind, MAX_WORD_EVENTS, ONE_FOLLOWS};
use reference::Screened;
use std::fs::File;
use support::{
    command, directory, hov, hov_in, hov_unread, hov_with, refused, sealed, stopped, Done,
};

const A: &str = "samples/a.sealed";

/// The result of `hov screen` with two files and these events.
fn screen(file: &str, with: &str, word: &[u8]) -> Done {
    let mut arguments = ["screen", file, "--with", with].map(String::from).to_vec();
    arguments.extend(word.iter().map(u8::to_string));
    hov(&arguments)
}

/// What is told of a place, by its number in the net of a file.
fn place_of(name: &str, place: usize) -> String {
    format!(" (place {place} of {name})")
}

/// The option may stand anywhere before `--`.
#[test]
fn places_of_the_option() {
    let b = sealed(&directory("places_of_the_option"), "b", &ONE_FOLLOWS);
    for arguments in [
        vec!["screen", A, "--with", &b, "1"],
        vec!["screen", "--with", &b, A, "1"],
        vec!["screen", A, "1", "--with", &b],
        vec!["screen", "--with", &b, "--", A, "1"],
    ] {
        let line = format!(
            "stopped 0 2 1: event 1 at position 0, refused by place 2 (place 0 of {b}); \
             1 token missing\n"
        );
        assert_eq!(hov(&arguments), Done::new(1, &line, ""), "{arguments:?}");
    }
}

/// The numbers are those of the call; then comes whose place it is.
#[test]
fn whose_place() {
    let directory = directory("whose_place");
    let b = sealed(&directory, "b", &ONE_FOLLOWS);
    // A place with eight tokens, of which event 1 takes five.
    let five = sealed(&directory, "five", &[2, 0, 1, 8, 0, 0, 0, 0, 0, 0, 0, 5, 0]);
    let (b, five) = (b.as_str(), five.as_str());
    let permitted = Done::new(0, "permitted\n", "");
    assert_eq!(screen(A, b, &[0, 1]), permitted);
    assert_eq!(screen(b, A, &[0, 1]), permitted);
    assert_eq!(screen(A, b, &[]), permitted);
    for (file, with, word, numbers, name, own) in [
        (A, b, [0, 0, 0].as_slice(), [2, 1, 1], A, 1),
        (b, A, &[0, 0, 0], [2, 2, 1], A, 1),
        (A, A, &[0, 0, 0], [2, 1, 1], A, 1),
        // Both refuse the step.
        (A, five, &[0, 0, 1, 1], [3, 0, 1], A, 0),
        (five, A, &[0, 0, 1, 1], [3, 0, 2], five, 0),
        // The second refuses an earlier one.
        (A, b, &[1, 0], [0, 2, 1], b, 0),
    ] {
        let line = stopped(word, numbers, &place_of(name, own));
        let done = screen(file, with, word);
        assert_eq!(done, Done::new(1, &line, ""), "{file} {with} {word:?}");
    }
}

/// A refusal names the file that it is about: of two the first, and both where it is about
/// the word or the event counts.
#[test]
fn whose_refusal() {
    let directory = directory("whose_refusal");
    let file = |name, bundle: &[u8]| sealed(&directory, name, bundle);
    let b = &file("b", &ONE_FOLLOWS);
    let cut = &file("cut", &SAMPLE_A[..28]);
    let shorter = &file("shorter", &SAMPLE_A[..20]);
    let value = &file("value", &[2, 0, 65]);
    let events = &file("events", &five_long_words(2));
    let three = &file("three", &[3, 0, 0]);
    let damaged = "samples/damaged.sealed";
    let shuffled = "samples/shuffled.sealed";
    let joined = "samples/joined.sealed";
    let both = |first: &str, second: &str| format!("{first} with {second}");
    for (first, second, event, number, spot, name) in [
        // What does not open comes first, of the first file and then of the second.
        (damaged, shuffled, 9, 2, 0, damaged.into()),
        (shuffled, damaged, 9, 17, 1, shuffled.into()),
        (cut, joined, 9, 18, 0, joined.into()),
        (A, "/dev/null", 9, 1, 0, "/dev/null".into()),
        ("/dev/zero", A, 9, 1, 0, "/dev/zero".into()),
        // Then the bundles.
        (cut, A, 9, 6, 27, cut.clone()),
        (A, cut, 9, 6, 27, cut.clone()),
        (cut, shorter, 9, 6, 27, cut.clone()),
        (shorter, cut, 9, 6, 19, shorter.clone()),
        (value, cut, 9, 7, 2, value.clone()),
        (three, value, 9, 7, 2, value.clone()),
        (events, value, 9, 8, 1_026, events.clone()),
        (b, events, 9, 8, 1_026, events.clone()),
        // Then both together, and the word.
        (A, three, 9, 19, 0, both(A, three)),
        (three, A, 0, 19, 0, both(three, A)),
        (A, b, 9, 15, 0, both(A, b)),
        (A, A, 2, 15, 0, both(A, A)),
    ] {
        let line = refused(number, spot, &name);
        let done = screen(first, second, &[event]);
        assert_eq!(done, Done::new(1, &line, ""), "{first} {second}");
    }
    let line = format!(
        "refused 19 0 {A} with {three}: the event counts of the two bundles are not the same; \
         the nets are not of one log: join only nets over the same events\n"
    );
    assert_eq!(screen(A, three, &[0]), Done::new(1, &line, ""));
}

/// A word that is too long is refused before the bundles, for both files.
#[test]
fn longest_words() {
    let directory = directory("longest_words_on_two_nets");
    let cut = &sealed(&directory, "cut", &SAMPLE_A[..28]);
    let f = "samples/f.sealed";
    let longest = [0; MAX_WORD_EVENTS];
    assert_eq!(screen(f, f, &longest), Done::new(0, "permitted\n", ""));
    for (first, second) in [(f, f), (cut, f), (f, cut)] {
        let line = refused(14, 65_535, &format!("{first} with {second}"));
        let done = screen(first, second, &[9; MAX_WORD_EVENTS + 1]);
        assert_eq!(done, Done::new(1, &line, ""));
    }
}

/// What can't be read is told by its name, also beside a file that is refused.
#[test]
fn unreadable_files() {
    let missing = Done::new(3, "", "hov: missing: No such file or directory\n");
    let directory = Done::new(3, "", "hov: samples: Is a directory\n");
    for other in [A, "samples/damaged.sealed"] {
        assert_eq!(screen(other, "missing", &[0]), missing);
        assert_eq!(screen("missing", other, &[0]), missing);
        assert_eq!(screen(other, "samples", &[0]), directory);
        assert_eq!(screen("samples", other, &[0]), directory);
    }
    assert_eq!(screen("missing", "samples", &[0]), missing);
    assert_eq!(screen("samples", "missing", &[0]), directory);
}

/// Either file may be standard input.
#[test]
fn standard_input() {
    let a = build(&SAMPLE_A);
    let b = &sealed(&directory("standard_input_with"), "b", &ONE_FOLLOWS);
    for (arguments, place) in [
        (["screen", "-", "--with", b, "1"], 2),
        (["screen", b, "--with", "-", "1"], 0),
    ] {
        let (status, output, errors) = hov_with(&arguments, &a);
        let line = stopped(&[1], [0, place, 1], &place_of(b, 0));
        assert_eq!((status, output), (1, line.into_bytes()), "{errors}");
    }
    let (status, output, _) = hov_with(&["screen", A, "--with", "-", "0"], &build(&SAMPLE_H));
    let line = refused(19, 0, &format!("{A} with -"));
    assert_eq!((status, output), (1, line.into_bytes()));
    let line = refused(1, 0, "-");
    assert_eq!(screen(A, "-", &[0]), Done::new(1, &line, ""));
}

/// A file behind `--with` may begin with a dash, since a file is due there.
#[test]
fn a_file_named_like_an_option() {
    let directory = directory("with_like_an_option");
    for name in ["-x", "--with", "--"] {
        sealed(&directory, name, &ONE_FOLLOWS);
        let done = hov_in(&directory, &["screen", "--with", name, "./-x", "1"]);
        let line = stopped(&[1], [0, 0, 1], &place_of("./-x", 0));
        assert_eq!(done, Done::new(1, &line, ""), "{name}");
    }
}

/// What `hov screen` does with two nets, of which the first has so many places, by the
/// reference.
fn owed(run: &mut Run, nets: [&[u8]; 2], places: usize, word: &[u8], names: [&str; 2]) -> Done {
    match reference::screen_joined(nets[0], nets[1], word) {
        Ok(Screened::Permitted) => {
            run.note("permitted");
            Done::new(0, "permitted\n", "")
        }
        Ok(Screened::Stopped {
            position,
            place,
            shortfall,
        }) => {
            let (class, whose) = if place < places {
                ("a place of the first", place_of(names[0], place))
            } else {
                ("a place of the second", place_of(names[1], place - places))
            };
            run.note(class);
            let line = stopped(word, [position, place, shortfall], &whose);
            Done::new(1, &line, "")
        }
        Err(refusal) => {
            run.count(refusal.number);
            let line = refused(refusal.number, refusal.spot, &names.join(" with "));
            Done::new(1, &line, "")
        }
    }
}

/// Words of every kind on any two nets, against the reference.
#[test]
fn generated_words() {
    let mut run = Run::start("hov_screen_with_generated_words");
    let directory = directory("generated_words_on_two_nets");
    for _ in 0..run.cases(60) {
        let (first, second, word) = two_nets(&mut run.rng);
        let nets = [first.bytes(), second.bytes()];
        let names = [("first", &nets[0]), ("second", &nets[1])]
            .map(|(name, bundle)| sealed(&directory, name, bundle));
        let names = names.each_ref().map(String::as_str);
        let mut words = Kind::ALL
            .map(|kind| kind.word(&mut run.rng, &first))
            .to_vec();
        let mut wrong = word.clone();
        let at = run.rng.below(word.len());
        wrong[at] = run.rng.within(first.n..=255) as u8;
        words.extend([word, wrong]);
        let nets = nets.each_ref().map(Vec::as_slice);
        for word in words {
            let owed = owed(&mut run, nets, first.places.len(), &word, names);
            let done = screen(names[0], names[1], &word);
            assert_eq!(done, owed, "{word:?}, {run}");
        }
    }
    run.finish_with_classes(
        &[(15, 60)],
        &[
            ("permitted", 60),
            ("a place of the first", 40),
            ("a place of the second", 30),
        ],
    );
}

#[test]
fn output_that_takes_nothing() {
    // Permitted, stopped and refused.
    for events in [["0", "1"], ["1", "0"], ["0", "2"]] {
        let arguments = [["screen", A, "--with", A].as_slice(), &events].concat();
        let full = File::create("/dev/full").expect("a device that is full");
        let mut command = command(&arguments);
        let done = Done::of(command.stdout(full).output().expect("hov runs"));
        let error = "hov: standard output: No space left on device\n";
        assert_eq!(done, Done::new(3, "", error));
        assert_eq!(hov_unread(&arguments), Done::new(3, "", ""));
    }
}
