//! `hov replay` with a net in place of another: long words, and any nets.

#[path = "support/replaying.rs"]
mod replaying;
mod support;

use differential::bundles::Bundle;
use differential::run::Run;
use differential::screening::{another_net, any_net, MAX_WORD_EVENTS};
use reference::Screened;
use replaying::{idleness, played, tokens_line};
use support::{directory, hov, hov_in, refused, sealed, Done};

/// A net takes the place of another behind as many events as there can be, and one event more is
/// refused there.
#[test]
fn longest_words() {
    let f = "samples/f.sealed";
    let gaining = &sealed(
        &directory("then_longest"),
        "g",
        &[1, 0, 1, 0, 0, 1, 0, 0, 0],
    );
    let events = ["0"; MAX_WORD_EVENTS];
    let lines = "after event 0: no places\n".repeat(MAX_WORD_EVENTS);
    let arguments = [&["replay", f], &events[..], &["--then", gaining, "0"]].concat();
    let refused = refused(14, 65_535, gaining);
    let expected = format!(
        "at first: no places\n{lines}replaced by {gaining}: 65535\n{refused}\
         not idle: place 0 has 65535, at first 0\n"
    );
    assert_eq!(hov(&arguments), Done::new(1, &expected, ""));
}

/// What is owed for a word that is played up to a position on the first net and from there on
/// the second.
fn owed(first: &Bundle, second: &Bundle, word: &[u8], position: usize) -> Done {
    let (before, lines) = (&word[..position], tokens_line("at first", first, &[]));
    let (played_first, end, is_stopped) = played(first, before, 0, " of first");
    let lines = lines + &played_first;
    if is_stopped {
        let idleness = idleness(first, &word[..end]);
        return Done::new(1, &format!("{lines}{idleness}"), "");
    }
    let screened = reference::screen(&second.bytes(), before).expect("sound events");
    if let Screened::Stopped { position, .. } = screened {
        let refused = refused(23, position, "second");
        let idleness = idleness(first, before);
        return Done::new(1, &format!("{lines}{refused}{idleness}"), "");
    }
    let replaced = tokens_line("replaced by second", second, before);
    let (played_second, end, is_stopped) = played(second, word, position, " of second");
    let lines = lines + &replaced + &played_second;
    let idleness = idleness(second, &word[..end]);
    match is_stopped {
        true => Done::new(1, &format!("{lines}{idleness}"), ""),
        false => Done::new(0, &format!("{lines}permitted\n{idleness}"), ""),
    }
}

/// Any two nets over the same events.
#[test]
fn generated_nets() {
    let mut run = Run::start("hov_replay_then_generated_nets");
    let directory = directory("then_generated_nets");
    for _ in 0..run.cases(150) {
        let (first, mut word) = any_net(&mut run.rng);
        let second = another_net(&mut run.rng, &first, &word);
        word.truncate(60);
        sealed(&directory, "first", &first.bytes());
        sealed(&directory, "second", &second.bytes());
        let position = run.rng.within(0..=word.len());
        let events: Vec<String> = word.iter().map(u8::to_string).collect();
        let (before, behind) = events.split_at(position);
        let names = ["replay", "first", "--then", "second"].map(String::from);
        let arguments = [&names[..2], before, &names[2..], behind].concat();
        let done = hov_in(&directory, &arguments);
        assert_eq!(done, owed(&first, &second, &word, position), "{run}");
        run.note(match done.output.lines().nth_back(1) {
            Some(line) if line.starts_with("refused 23 ") => "refused",
            Some(line) if line.starts_with("stopped ") => "stopped",
            _ => "permitted",
        });
    }
    run.finish_with_classes(&[], &[("permitted", 25), ("refused", 10), ("stopped", 25)]);
}
