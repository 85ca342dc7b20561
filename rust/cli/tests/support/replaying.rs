//! The lines of `hov replay`, by the sums of counts.

use crate::support::stopped;
use differential::bundles::Bundle;
use differential::engine;
use differential::places::Place;
use reference::Screened;

/// The tokens of a net behind a word that it permits.
fn marking(bundle: &Bundle, word: &[u8]) -> Vec<u64> {
    let places: Vec<Place> = bundle.places.iter().map(Place::from).collect();
    engine::marking(bundle.n, &places, word)
}

/// The line with the tokens of a net behind a word that it permits.
pub fn tokens_line(when: &str, bundle: &Bundle, word: &[u8]) -> String {
    let tokens = marking(bundle, word);
    let tokens: Vec<String> = tokens.iter().map(u64::to_string).collect();
    match tokens.as_slice() {
        [] => format!("{when}: no places\n"),
        _ => format!("{when}: {}\n", tokens.join(" ")),
    }
}

/// The line on whether the terminal is idle behind a word.
pub fn idleness(bundle: &Bundle, word: &[u8]) -> String {
    let initial = marking(bundle, &[]);
    let left = marking(bundle, word);
    match (0..left.len()).find(|&place| left[place] != initial[place]) {
        None => "idle: each place has its initial tokens\n".to_string(),
        Some(place) => format!(
            "not idle: place {place} has {}, at first {}\n",
            left[place], initial[place]
        ),
    }
}

/// The lines for the events of a word from a position on, up to a stop, whose line has `whose`
/// behind the place. How many events are played then, and whether there is a stop.
pub fn played(bundle: &Bundle, word: &[u8], from: usize, whose: &str) -> (String, usize, bool) {
    let (end, stop) = match reference::screen(&bundle.bytes(), word).expect("sound events") {
        Screened::Permitted => (word.len(), None),
        Screened::Stopped {
            position,
            place,
            shortfall,
        } => {
            let line = stopped(word, [position, place, shortfall], whose);
            (position, Some(line))
        }
    };
    let mut text = String::new();
    for length in from + 1..=end {
        let when = format!("after event {}", word[length - 1]);
        text += &tokens_line(&when, bundle, &word[..length]);
    }
    let is_stopped = stop.is_some();
    (text + &stop.unwrap_or_default(), end, is_stopped)
}
