//! Nets, and words to screen with them.

use differential::bundles::{Bundle, Place, MAX_LENGTH, MAX_PLACES, SAMPLE_A, SAMPLE_NEW};
use differential::rng::Rng;
use differential::sales::LARGEST_NEW;
use differential::screening::net;
use hovmekhar::{MAX_EVENTS, MAX_LOG_EVENTS, MAX_WORD_EVENTS};

/// The last position of the longest word.
pub const LAST: usize = MAX_WORD_EVENTS - 1;

/// A position among its last hundred.
pub const NEAR_THE_END: usize = LAST - 50;

/// A position where hardly anything is replayed yet.
pub const AT_ONCE: usize = 1;

/// Bundles, and a word to screen with them.
pub struct Screening<const NETS: usize> {
    pub bundles: [Vec<u8>; NETS],
    pub word: Vec<u8>,
}

/// Sample B.
pub fn sample_word() -> Screening<1> {
    Screening {
        bundles: [SAMPLE_A.to_vec()],
        word: vec![0, 1],
    }
}

/// A completed word, on the net of its log.
pub fn new_sample_word() -> Screening<1> {
    Screening {
        bundles: [SAMPLE_NEW.to_vec()],
        word: vec![0, 1],
    }
}

/// As many sales as a word can have, on the net of the largest bundle of the new edition.
pub fn longest_sales() -> Screening<1> {
    let bundle = LARGEST_NEW.certified(&mut Rng::new(0)).bundle;
    Screening {
        bundles: [bundle.bytes()],
        word: [0, 1].repeat(MAX_WORD_EVENTS / 2),
    }
}

/// Sample D: the last place refuses the last event.
pub fn sample_stop() -> Screening<1> {
    Screening {
        bundles: [SAMPLE_A.to_vec()],
        word: vec![0, 0, 0],
    }
}

/// The longest word on the largest net, which permits it.
pub fn longest_word() -> Screening<1> {
    longest_on(&largest_net())
}

/// The same, but the last place, and no other, refuses the event at a position.
pub fn longest_stop(position: usize) -> Screening<1> {
    let mut net = largest_net();
    net.places[MAX_PLACES - 1] = Place {
        m: position as u16,
        ins: vec![0; net.n],
        outs: vec![1; net.n],
    };
    let screening = longest_on(&net);
    let told = reference::screen(&screening.bundles[0], &screening.word);
    let expected = reference::Screened::Stopped {
        position,
        place: MAX_PLACES - 1,
        shortfall: 1,
    };
    assert_eq!(told, Ok(expected));
    screening
}

/// As many places and events as there can be. The net permits the longest word.
///
/// Each place could refuse: it has events that take more out of it than they put in, and
/// the fewest initial tokens with which it permits the word, so that it comes down to what
/// an event takes. A place that no event leaves with fewer tokens, or that has more of them
/// than a word can take, never refuses. A search may leave such places out, and would then
/// be timed on less of a net than the line says.
pub fn largest_net() -> Bundle {
    let word = events(MAX_EVENTS);
    let place = |number: usize| {
        let outs: Vec<u16> = (0..MAX_EVENTS)
            .map(|e| ((e * 7 + number) % 5) as u16)
            .collect();
        // The last event puts back what it takes, each other what the one behind it takes.
        // Those occur equally often, so the tokens neither pile up nor run out.
        let mut ins = outs.clone();
        ins[..MAX_EVENTS - 1].rotate_left(1);
        assert!((0..MAX_EVENTS).any(|e| outs[e] > ins[e]), "place {number}");
        Place {
            m: fewest_tokens(&ins, &outs, &word),
            ins,
            outs,
        }
    };
    net(MAX_EVENTS, (0..MAX_PLACES).map(place).collect())
}

/// The same with as many events in its log as there can be.
pub fn largest_with_log() -> Bundle {
    let mut net = largest_net();
    let lengths = [vec![MAX_LENGTH; 4], vec![MAX_LOG_EVENTS - 4 * MAX_LENGTH]].concat();
    let events = events(net.n);
    net.words = lengths
        .iter()
        .map(|&length| events[..length].to_vec())
        .collect();
    net
}

/// The longest word on this net.
pub fn longest_with_log() -> Screening<1> {
    longest_on(&largest_with_log())
}

/// The fewest initial tokens with which a place permits a word.
fn fewest_tokens(ins: &[u16], outs: &[u16], word: &[u8]) -> u16 {
    let mut gained = 0;
    let mut fewest = 0;
    for event in word.iter().map(|&event| usize::from(event)) {
        fewest = fewest.max(i64::from(outs[event]) - gained);
        gained += i64::from(ins[event]) - i64::from(outs[event]);
    }
    u16::try_from(fewest).expect("two bytes are enough")
}

/// The longest word, on a net.
fn longest_on(net: &Bundle) -> Screening<1> {
    Screening {
        bundles: [net.bytes()],
        word: events(net.n),
    }
}

/// As many events as a word can have, of so many different ones.
fn events(n: usize) -> Vec<u8> {
    (0..MAX_WORD_EVENTS)
        .map(|i| (i * 167 % 251 % n) as u8)
        .collect()
}

/// The net of a screening behind another net.
pub fn behind(first: Bundle, screening: Screening<1>) -> Screening<2> {
    let Screening {
        bundles: [second],
        word,
    } = screening;
    Screening {
        bundles: [first.bytes(), second],
        word,
    }
}

/// Two places that permit the words on sample A.
pub fn small_net() -> Bundle {
    let place = |m, ins, outs| Place { m, ins, outs };
    net(
        2,
        vec![
            place(0, vec![1, 0], vec![0, 1]),
            place(3, vec![0, 0], vec![1, 1]),
        ],
    )
}
