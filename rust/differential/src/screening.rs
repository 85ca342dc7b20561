//! A further reading of the rules for screening besides the reference, kept as
//! close to their wording as possible and without regard to speed; and words and
//! nets to screen.

use crate::bundles::{Bundle, Place, MAX_PLACES};
use crate::fields::Fields;
use crate::files::MAX_BUNDLE_SIZE;
use crate::logs::random_word;
use crate::nets::small_log;
use crate::places::{self, first_refused, Refused};
use crate::rng::Rng;
use crate::run::{refusal, Outcome, Run};
use reference::Screened;

/// The largest number of events in a word that is screened.
pub const MAX_WORD_EVENTS: usize = 65_535;

/// The answer for a word that is stopped.
pub fn stopped(position: usize, place: usize, shortfall: usize) -> Outcome<Screened> {
    Ok(Screened::Stopped {
        position,
        place,
        shortfall,
    })
}

/// Screens a word by the definitions.
pub fn screen_by_definitions(bundle: &[u8], word: &[u8]) -> Outcome<Screened> {
    check_length(word)?;
    let (n, places) = read_net(bundle)?;
    replay(n, &places, word)
}

/// Screens a word on two nets by the definitions: with one list of all places.
pub fn screen_joined_by_definitions(first: &[u8], second: &[u8], word: &[u8]) -> Outcome<Screened> {
    check_length(word)?;
    let (n, mut places) = read_net(first)?;
    let (other_n, others) = read_net(second)?;
    if n != other_n {
        return refusal(19, 0);
    }
    places.extend(others);
    replay(n, &places, word)
}

fn check_length(word: &[u8]) -> Outcome<()> {
    if word.len() > MAX_WORD_EVENTS {
        return refusal(14, MAX_WORD_EVENTS);
    }
    Ok(())
}

/// The event count and the places of a bundle.
pub fn read_net(bundle: &[u8]) -> Outcome<(usize, Vec<places::Place>)> {
    if bundle.is_empty() || bundle.len() > MAX_BUNDLE_SIZE {
        return refusal(4, 0);
    }
    let mut fields = Fields::new(bundle);
    let (n, is_new) = fields.event_count()?;
    // Rows are not counted, and completed words not obeyed.
    fields.log(n, is_new, usize::MAX)?;
    Ok((n, fields.places(n)?))
}

fn replay(n: usize, places: &[places::Place], word: &[u8]) -> Outcome<Screened> {
    if let Some(position) = word.iter().position(|&event| usize::from(event) >= n) {
        return refusal(15, position);
    }
    match first_refused(n, places, word) {
        None => Ok(Screened::Permitted),
        Some(Refused {
            position,
            place,
            shortfall,
        }) => stopped(position, place, shortfall),
    }
}

/// Screens a word on both sides, and checks the answer by the definitions.
pub fn screen(run: &mut Run, bundle: &[u8], word: &[u8]) -> Outcome<Screened> {
    let outcome = run.screen(bundle, word);
    let expected = screen_by_definitions(bundle, word);
    assert_eq!(outcome, expected, "{bundle:?}, {word:?}, {run}");
    outcome
}

/// Screens a word on two nets on both sides, and checks the answer by the definitions.
pub fn screen_joined(run: &mut Run, first: &[u8], second: &[u8], word: &[u8]) -> Outcome<Screened> {
    let outcome = run.screen_joined(first, second, word);
    let expected = screen_joined_by_definitions(first, second, word);
    assert_eq!(outcome, expected, "{first:?}, {second:?}, {word:?}, {run}");
    outcome
}

/// What a word to be screened is like.
#[derive(Clone, Copy, Debug, PartialEq, Eq)]
pub enum Kind {
    /// No event.
    Empty,
    /// A word of the log.
    Log,
    /// A beginning of such a word, and one event more.
    Continued,
    /// A word of the log, and several events more.
    Longer,
    /// Few random events.
    Short,
    /// Many random events.
    Long,
    /// The same event over and over.
    Equal,
}

impl Kind {
    /// All of them.
    pub const ALL: [Kind; 7] = [
        Kind::Empty,
        Kind::Log,
        Kind::Continued,
        Kind::Longer,
        Kind::Short,
        Kind::Long,
        Kind::Equal,
    ];

    /// A word of this kind, for the log of a bundle.
    pub fn word(self, rng: &mut Rng, bundle: &Bundle) -> Vec<u8> {
        let n = bundle.n;
        let mut of_log = match bundle.words.as_slice() {
            [] => Vec::new(),
            words => words[rng.below(words.len())].clone(),
        };
        match self {
            Kind::Empty => Vec::new(),
            Kind::Log => of_log,
            Kind::Continued => {
                of_log.truncate(rng.within(0..=of_log.len()));
                of_log.push(rng.below(n) as u8);
                of_log
            }
            Kind::Longer => {
                of_log.extend(random_word(rng, n, 2..=20));
                of_log
            }
            Kind::Short => random_word(rng, n, 1..=12),
            Kind::Long => random_word(rng, n, 100..=600),
            Kind::Equal => vec![rng.below(n) as u8; rng.within(1..=300)],
        }
    }
}

/// A bundle over two events with a place that event 0 puts a token into and event 1 takes
/// one out of: event 1 occurs at most as often as event 0 before it.
pub const ONE_FOLLOWS: [u8; 13] = [2, 0, 1, 0, 0, 1, 0, 0, 0, 0, 0, 1, 0];

/// A bundle without words and certificates.
pub fn net(n: usize, places: Vec<Place>) -> Bundle {
    Bundle {
        n,
        words: Vec::new(),
        marks: None,
        places,
        certificates: Vec::new(),
    }
}

/// Marks for these words, or the old edition.
fn any_edition(rng: &mut Rng, words: &[Vec<u8>]) -> Option<Vec<bool>> {
    let is_new = rng.below(2) == 0;
    is_new.then(|| words.iter().map(|_| rng.below(2) == 0).collect())
}

/// A bundle without certificates, in either edition, whose places need neither fit its log
/// nor obey it; and a word. Each place permits a beginning of the word, and often no more
/// of it.
pub fn any_net(rng: &mut Rng) -> (Bundle, Vec<u8>) {
    let (n, words) = small_log(rng);
    let longest = rng.choose(&[5, 50, 500]);
    let word = random_word(rng, n, 1..=longest);
    let places = any_places(rng, n, &word);
    let bundle = Bundle {
        marks: any_edition(rng, &words),
        words,
        ..net(n, places)
    };
    (bundle, word)
}

/// Two bundles over the same events, like those of [`any_net`], each in its own edition; and
/// a word.
pub fn two_nets(rng: &mut Rng) -> (Bundle, Bundle, Vec<u8>) {
    let (first, word) = any_net(rng);
    let second = another_net(rng, &first, &word);
    (first, second, word)
}

/// A further bundle over the same events, whose places are such for the same word.
pub fn another_net(rng: &mut Rng, first: &Bundle, word: &[u8]) -> Bundle {
    let n = first.n;
    let words = match rng.below(3) {
        0 => Vec::new(),
        // Two modellers share one log.
        1 => first.words.clone(),
        _ => vec![random_word(rng, n, 0..=20)],
    };
    let places = any_places(rng, n, word);
    Bundle {
        marks: any_edition(rng, &words),
        words,
        ..net(n, places)
    }
}

fn any_places(rng: &mut Rng, n: usize, word: &[u8]) -> Vec<Place> {
    let count = rng.choose(&[0, 1, 1, 2, 3, 8, MAX_PLACES]);
    let place = |_| {
        let end = rng.within(word.len() / 2..=word.len());
        any_place(rng, n, &word[..end])
    };
    (0..count).map(place).collect()
}

/// A place with the fewest initial tokens with which it permits a word, or as many
/// as two bytes can hold.
fn any_place(rng: &mut Rng, n: usize, word: &[u8]) -> Place {
    let largest = rng.choose(&[1, 1, 3, 300, 65_535]);
    let zeros = rng.choose(&[0, 1, 3]);
    let mut number = || match rng.below(1 + zeros) {
        0 => rng.within(0..=largest) as u16,
        _ => 0,
    };
    let ins: Vec<u16> = (0..n).map(|_| number()).collect();
    let outs: Vec<u16> = (0..n).map(|_| number()).collect();

    Place {
        m: fewest_tokens(&ins, &outs, word).min(65_535) as u16,
        ins,
        outs,
    }
}

/// The fewest initial tokens with which a place permits a word.
pub fn fewest_tokens(ins: &[u16], outs: &[u16], word: &[u8]) -> i64 {
    let mut tokens = 0;
    let mut fewest = 0;
    for event in word.iter().map(|&event| usize::from(event)) {
        fewest = fewest.max(i64::from(outs[event]) - tokens);
        tokens += i64::from(ins[event]) - i64::from(outs[event]);
    }
    fewest
}
