//! Sealing then opening, and opening then sealing.

use differential::files::{build, random_bundle, Filling, MAX_BUNDLE_SIZE};
use differential::run::Run;

#[test]
fn opening_a_sealed_bundle_gives_the_bundle() {
    let mut run = Run::start("opening_a_sealed_bundle_gives_the_bundle");
    for _ in 0..run.cases(500) {
        let filling = run.rng.choose(&Filling::ALL);
        let length = run.rng.within(1..=MAX_BUNDLE_SIZE);
        let bundle = filling.bundle(&mut run.rng, length);

        let sealed = run.seal(&bundle, 65_536);
        let file_len = sealed.outcome.expect("an allowed length");
        let opened = run.open(&sealed.output[..file_len], length);
        assert_eq!(opened.outcome, Ok(length), "{run}");
        assert!(opened.output == bundle, "another bundle: {run}");
    }
    run.finish(&[(0, 1_000)]);
}

#[test]
fn sealing_an_opened_file_gives_the_file() {
    let mut run = Run::start("sealing_an_opened_file_gives_the_file");
    for _ in 0..run.cases(1_000) {
        let file = build(&random_bundle(&mut run.rng, 1));

        let opened = run.open(&file, MAX_BUNDLE_SIZE);
        let length = opened.outcome.expect("a sound file");
        let sealed = run.seal(&opened.output[..length], file.len());
        assert_eq!(sealed.outcome, Ok(file.len()), "{run}");
        assert!(sealed.output == file, "another file: {run}");
    }
    run.finish(&[(0, 2_000)]);
}
