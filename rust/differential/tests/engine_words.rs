//! The carried engine: words event by event, against screening of the whole word. After each
//! event the tokens are the marking.

use differential::bundles::{Bundle, MAX_PLACES};
use differential::engine::{
    marking, play, room, screened, start, step, step_with_room, MAX_TOKENS,
};
use differential::logs::random_word;
use differential::nets::small_certified;
use differential::places::Place;
use differential::run::{refusal, Outcome, Run};
use differential::sales::LARGEST_NEW;
use differential::screening::{any_net, net, screen, Kind, MAX_WORD_EVENTS};
use hovmekhar::ffi;
use reference::Screened;

/// Words of every kind on any bundles: the last answer is screening's, with its shortfall.
#[test]
fn any_words() {
    let mut run = Run::start("engine_words::any_words");
    for _ in 0..run.cases(60) {
        let bundle = match run.rng.below(2) {
            0 => small_certified(&mut run.rng).bundle,
            _ => any_net(&mut run.rng).0,
        };
        let bytes = bundle.bytes();
        for kind in Kind::ALL {
            let word = kind.word(&mut run.rng, &bundle);
            let length = bundle.places.len() + run.rng.below(5);
            let tokens: Vec<u64> = run.rng.items(length);
            let expected = screen(&mut run, &bytes, &word);
            let played = play(&mut run, &bytes, &tokens, &word);
            assert_eq!(played.outcome, expected, "{bytes:?}, {word:?}, {run}");
            run.note(kind_of(expected));
        }
    }
    run.finish_with_classes(
        &[(0, 3_000)],
        &[
            ("a permitted word", 60),
            ("a stopped word", 60),
            ("several missing", 10),
        ],
    );
}

fn kind_of(outcome: Outcome<Screened>) -> &'static str {
    match outcome {
        Ok(Screened::Permitted) => "a permitted word",
        Ok(Screened::Stopped { shortfall: 1, .. }) => "a stopped word",
        Ok(Screened::Stopped { .. }) => "several missing",
        Err(_) => "a refused word",
    }
}

/// After any permitted events the next answer is screening's for the longer word, and a
/// stopped or refused event leaves the run as it was: it goes on with any other one.
#[test]
fn a_run_goes_on() {
    let mut run = Run::start("a_run_goes_on");
    for _ in 0..run.cases(80) {
        let (bundle, _) = any_net(&mut run.rng);
        let places: Vec<Place> = bundle.places.iter().map(Place::from).collect();
        let bytes = bundle.bytes();
        let mut tokens = start(&mut run, &bytes, &[9; MAX_PLACES]).tokens;
        let mut kept = room(&mut run.rng, 60);
        let mut word = Vec::new();
        for _ in 0..60 {
            let event = match run.rng.below(10) {
                0 => bundle.n,
                _ => run.rng.below(bundle.n),
            };
            let played = step(&mut run, &bytes, &tokens, &kept, word.len(), event);
            let longer = [word.as_slice(), &[event as u8]].concat();
            let (outcome, next) = screened(played.outcome);
            assert_eq!(outcome, screen(&mut run, &bytes, &longer), "{run}");
            if let Some(number) = next {
                assert_eq!(number, longer.len(), "{run}");
                word = longer;
                (tokens, kept) = (played.tokens, played.kept);
                let after = marking(bundle.n, &places, &word);
                assert_eq!(tokens[..places.len()], after, "{run}");
                assert_eq!(kept[..number], word, "{run}");
            } else {
                assert_eq!((&played.tokens, &played.kept), (&tokens, &kept), "{run}");
            }
        }
    }
    run.finish_with_classes(&[(15, 50)], &[("permitted", 1_000), ("stopped", 500)]);
}

/// What a word comes to, event by event, and the tokens and the events that are left in a
/// buffer as long as it, by the library alone.
fn play_alone(
    bytes: &[u8],
    tokens: &mut [u64],
    kept: &mut [u8],
    word: &[u8],
) -> Result<usize, [usize; 3]> {
    let mut answer = [0; 4];
    assert_eq!(ffi::start(bytes, tokens, &mut answer), 0);
    for &event in word {
        let number = answer[0] as usize;
        match ffi::step(bytes, tokens, kept, number, event.into(), &mut answer) {
            0 => assert_eq!(answer[0] as usize, number + 1),
            ffi::STOPPED => return Err([answer[0], answer[1], answer[2]].map(|n| n as usize)),
            other => panic!("refused with {other}"),
        }
    }
    Ok(answer[0] as usize)
}

/// Compares a long word with screening, and what is left with the marking and the events that
/// are permitted. One event more than a word can have is refused with 14, and else one more than
/// the buffer has room for with 3.
fn compare_long(run: &mut Run, bundle: &Bundle, word: &[u8]) {
    let bytes = bundle.bytes();
    let mut tokens = vec![7; bundle.places.len() + 2];
    let noise = run.rng.bytes(word.len());
    let mut kept = noise.clone();
    let played = play_alone(&bytes, &mut tokens, &mut kept, word);
    let end = match (played, screen(run, &bytes, word)) {
        (Ok(number), Ok(Screened::Permitted)) => number,
        (
            Err(numbers),
            Ok(Screened::Stopped {
                position,
                place,
                shortfall,
            }),
        ) => {
            assert_eq!(numbers, [position, place, shortfall], "{run}");
            position
        }
        other => panic!("{other:?}, {run}"),
    };
    let places: Vec<Place> = bundle.places.iter().map(Place::from).collect();
    let (front, rest) = tokens.split_at(places.len());
    assert_eq!(front, marking(bundle.n, &places, &word[..end]), "{run}");
    assert_eq!(rest, [7, 7], "{run}");
    assert!(kept[..end] == word[..end], "{run}");
    assert!(kept[end..] == noise[end..], "{run}");
    let next = step(run, &bytes, &tokens, &kept, end, 0).outcome;
    if end == MAX_WORD_EVENTS {
        assert_eq!(next, refusal(14, MAX_WORD_EVENTS), "{run}");
        run.note("as many events as a word can have");
    } else if end == word.len() {
        assert_eq!(next, refusal(3, end + 1), "{run}");
    }
}

/// Words of up to 65,535 events.
#[test]
fn long_words() {
    let mut run = Run::start("engine_words::long_words");
    for _ in 0..run.cases(6) {
        let (small, word) = any_net(&mut run.rng);
        let longest = random_word(&mut run.rng, small.n, MAX_WORD_EVENTS..=MAX_WORD_EVENTS);
        compare_long(&mut run, &small, &word);
        compare_long(&mut run, &small, &longest);
        // Nothing is taken out, so that all of it is permitted.
        let mut gaining = small.clone();
        for place in &mut gaining.places {
            place.outs.fill(0);
        }
        compare_long(&mut run, &gaining, &longest);
    }
    let sales = LARGEST_NEW.certified(&mut run.rng).bundle;
    let many = [0, 1].repeat(MAX_WORD_EVENTS / 2);
    compare_long(&mut run, &sales, &many);
    compare_long(&mut run, &net(1, Vec::new()), &vec![0; MAX_WORD_EVENTS]);
    run.finish_with_classes(
        &[(0, 20), (14, 7)],
        &[("as many events as a word can have", 7)],
    );
}

/// The run that comes to the largest number of tokens: as many initial ones, and as many with
/// each event, as two bytes can hold. It is the largest that a step takes, too.
#[test]
fn most_tokens() {
    let mut run = Run::start("most_tokens");
    let place = differential::bundles::Place {
        m: 65_535,
        ins: vec![65_535, 65_535],
        outs: vec![0, 1],
    };
    let bytes = net(2, vec![place]).bytes();
    let mut tokens = [0];
    let mut kept = [1; MAX_WORD_EVENTS];
    let played = play_alone(&bytes, &mut tokens, &mut kept, &[0; MAX_WORD_EVENTS]);
    assert!(kept.iter().all(|&event| event == 0));
    assert_eq!((played, tokens), (Ok(MAX_WORD_EVENTS), [MAX_TOKENS]));
    assert_eq!(tokens, [4_294_901_760]);
    // From there a step adds as many again, and what is above is refused.
    let played = step_with_room(&mut run, &bytes, &tokens, 65_534, 0);
    assert_eq!(played.tokens, [4_294_967_295]);
    let played = step_with_room(&mut run, &bytes, &tokens, 0, 1);
    assert_eq!(played.tokens, [4_294_967_294]);
    for above in [1, 2, 65_535, 65_536, 1 << 40, u64::MAX - MAX_TOKENS] {
        let tokens = [MAX_TOKENS + above];
        let played = step_with_room(&mut run, &bytes, &tokens, 0, 1);
        assert_eq!(played.outcome, refusal(16, 0), "{run}");
        assert_eq!(played.tokens, tokens, "{run}");
    }
    run.finish(&[(0, 2), (16, 6)]);
}
