//! Replacing a net: bundles of both editions, accepted or not, behind any events, with tokens
//! and buffers of every length, whatever they hold.

use differential::bundle_faults::altered;
use differential::bundles::{one_for_each_answer, Bundle, SAMPLE_A, SAMPLE_F, SAMPLE_NEW};
use differential::engine::{any_kept, any_number, any_tokens, lengths, marking, replace};
use differential::logs::random_word;
use differential::nets::small_certified;
use differential::places::Place;
use differential::run::{refusal, Outcome, Run};
use differential::screening::{any_net, screen, two_nets, Kind, ONE_FOLLOWS};
use reference::Screened;

/// Sample A beside a place that event 0 puts a token into and event 1 takes one out of.
#[test]
fn by_hand() {
    let mut run = Run::start("replace::by_hand");
    let (a, one): (&[u8], &[u8]) = (&SAMPLE_A, &ONE_FOLLOWS);
    let seven = [7, 7, 7];
    for (nets, kept, number, outcome, left) in [
        ([one, a], [0, 0, 1, 9].as_slice(), 0, Ok(()), [1, 2, 7]),
        ([one, a], &[0, 0, 1, 9], 1, Ok(()), [1, 1, 7]),
        ([one, a], &[0, 0, 1, 9], 3, Ok(()), [0, 0, 7]),
        // One place takes the place of two: the second one's number stays.
        ([a, one], &[0, 0, 1], 3, Ok(()), [1, 7, 7]),
        ([a, a], &[0, 1], 2, Ok(()), [0, 1, 7]),
        // Both places of sample A stop on the third event 0, or the first on event 0 behind 1.
        ([one, a], &[0, 0, 0], 3, refusal(23, 2), seven),
        ([one, a], &[1, 0], 2, refusal(23, 1), seven),
        ([a, one], &[1], 1, refusal(23, 0), seven),
        // What is not there comes before it, also behind it, but not behind the number.
        ([a, one], &[1, 2], 2, refusal(15, 1), seven),
        ([a, one], &[0, 2], 1, Ok(()), [1, 7, 7]),
        ([a, &SAMPLE_NEW], &[2], 1, refusal(22, 0), seven),
        ([&SAMPLE_NEW, a], &[2], 1, refusal(22, 0), seven),
        ([a, one], &[0], 2, refusal(3, 2), seven),
        ([a, one], &[], 65_535, refusal(3, 65_535), seven),
        ([a, one], &[], 65_536, refusal(14, 65_535), seven),
    ] {
        let replaced = replace(&mut run, nets, &seven, kept, number);
        assert_eq!(
            (replaced.outcome, replaced.tokens),
            (outcome, left.to_vec())
        );
    }
    run.finish(&[(0, 6), (3, 2), (14, 1), (15, 1), (22, 2), (23, 3)]);
}

/// A bundle of either edition, whether or not it is accepted.
fn any_bundle(run: &mut Run) -> Bundle {
    match run.rng.below(2) {
        0 => small_certified(&mut run.rng).bundle,
        _ => any_net(&mut run.rng).0,
    }
}

/// Two bundles, mostly over the same events, and a word that both permit a beginning of.
fn any_two(run: &mut Run) -> (Bundle, Bundle, Vec<u8>) {
    match run.rng.below(5) {
        0 => {
            let (new, word) = any_net(&mut run.rng);
            (any_bundle(run), new, word)
        }
        _ => two_nets(&mut run.rng),
    }
}

/// The events so far of any kind, with bytes behind them that are no events.
fn any_events(run: &mut Run, new: &Bundle, word: &[u8]) -> (Vec<u8>, usize) {
    let mut events = match run.rng.below(3) {
        0 => word[..run.rng.within(0..=word.len())].to_vec(),
        1 => word[..run.rng.within(0..=word.len().min(4))].to_vec(),
        _ => run.rng.choose(&Kind::ALL).word(&mut run.rng, new),
    };
    let number = events.len();
    if number > 0 && run.rng.below(5) == 0 {
        let position = run.rng.below(number);
        events[position] = run.rng.within(new.n..=255) as u8;
    }
    let behind = run.rng.below(20);
    events.extend(run.rng.bytes(behind));
    (events, number)
}

/// Any two nets with tokens of any length: the new net's tokens are the marking, whatever was
/// there, and what refuses it is what screens the events so far.
#[test]
fn any_nets() {
    let mut run = Run::start("replace::any_nets");
    for _ in 0..run.cases(1_000) {
        let (old, new, word) = any_two(&mut run);
        let (kept, number) = any_events(&mut run, &new, &word);
        let places: Vec<Place> = new.places.iter().map(Place::from).collect();
        let nets = [old.bytes(), new.bytes()];
        let [old_bytes, new_bytes] = nets.each_ref().map(Vec::as_slice);
        for length in lengths(&mut run.rng, places.len()) {
            let tokens = any_tokens(&mut run.rng, length);
            let replaced = replace(&mut run, [old_bytes, new_bytes], &tokens, &kept, number);
            let expected = if old.n != new.n {
                refusal(22, 0)
            } else if length < places.len() {
                refusal(5, places.len())
            } else {
                stops(screen(&mut run, new_bytes, &kept[..number]))
            };
            assert_eq!(replaced.outcome, expected, "{run}");
            let mut left = tokens;
            if expected.is_ok() {
                let after = marking(new.n, &places, &kept[..number]);
                left[..places.len()].copy_from_slice(&after);
            }
            assert_eq!(replaced.tokens, left, "{run}");
        }
    }
    run.finish_with_classes(
        &[(5, 700), (15, 400), (22, 400), (23, 300)],
        &[("replaced", 900)],
    );
}

/// The answer of a replacement where screening the events so far answers this.
fn stops(screened: Outcome<Screened>) -> Outcome<()> {
    match screened? {
        Screened::Permitted => Ok(()),
        Screened::Stopped { position, .. } => refusal(23, position),
    }
}

/// Any number, and buffers that are too short, as long, or longer, of any bytes.
#[test]
fn any_numbers() {
    let mut run = Run::start("replace::any_numbers");
    for _ in 0..run.cases(500) {
        let (old, new, _) = two_nets(&mut run.rng);
        let tokens = any_tokens(&mut run.rng, 64);
        let number = any_number(&mut run.rng);
        let mut kept = any_kept(&mut run.rng, number);
        if run.rng.below(4) > 0 {
            kept = random_word(&mut run.rng, new.n, kept.len()..=kept.len());
        }
        let nets = [old.bytes(), new.bytes()];
        replace(
            &mut run,
            nets.each_ref().map(Vec::as_slice),
            &tokens,
            &kept,
            number,
        );
    }
    run.finish_with_classes(
        &[(3, 50), (14, 60), (15, 25), (23, 60)],
        &[("replaced", 60)],
    );
}

/// Each answer of the judge, for the old bundle and for the new one: what refuses a bundle
/// behind its last place, or for its rows, is no refusal here.
#[test]
fn refused_bundles() {
    let mut run = Run::start("replace::refused_bundles");
    for (bundle, judged) in one_for_each_answer() {
        let expected = match judged {
            Err(refused) if [4, 6, 8].contains(&refused.number) && bundle.len() != 3 => {
                Err(refused)
            }
            // The bundle of 9 ends in its words, before the count of places.
            Err(refused) if refused.number == 9 => refusal(6, bundle.len()),
            _ => Ok(()),
        };
        let n = bundle.first().map_or(1, |first| first % 128);
        let other = [n, 0, 0];
        for nets in [[&bundle, &other[..]], [&other, &bundle], [&bundle, &bundle]] {
            let replaced = replace(&mut run, nets, &[7; 64], &[0], 1);
            // Of two places one refuses event 0 at first, where it has no token.
            let expected = match (expected, judged) {
                (Ok(()), Err(refused)) if refused.number == 10 && nets[1].len() > 3 => {
                    refusal(23, 0)
                }
                _ => expected,
            };
            assert_eq!(replaced.outcome, expected, "{nets:?}, {run}");
        }
    }
    run.finish(&[(0, 25), (4, 3), (6, 3), (8, 3), (23, 2)]);
}

/// Up to four changes at once in either bundle or both. The definitions say which fault comes
/// first.
#[test]
fn several_faults() {
    let mut run = Run::start("replace::several_faults");
    for _ in 0..run.cases(1_000) {
        let (old, new, word) = any_two(&mut run);
        let (kept, number) = any_events(&mut run, &new, &word);
        let damaged = [&old, &new].map(|bundle| altered(&mut run.rng, bundle));
        let sound = [old.bytes(), new.bytes()];
        let tokens = any_tokens(&mut run.rng, 64);
        for nets in [
            [&damaged[0], &sound[1]],
            [&sound[0], &damaged[1]],
            [&damaged[0], &damaged[1]],
        ] {
            replace(&mut run, nets.map(Vec::as_slice), &tokens, &kept, number);
        }
    }
    run.finish_with_classes(
        &[(6, 400), (7, 500), (15, 60), (22, 120), (23, 100)],
        &[("replaced", 250)],
    );
}

/// The new edition differs by its first byte and its marks, which change no answer, nor does
/// it matter whether both bundles have the same.
#[test]
fn editions() {
    let mut run = Run::start("replace::editions");
    for _ in 0..run.cases(300) {
        let (old, new, word) = two_nets(&mut run.rng);
        let (kept, number) = any_events(&mut run, &new, &word);
        let tokens = any_tokens(&mut run.rng, 64);
        let [old, new] = [old, new].map(|bundle| both_editions(&mut run, bundle));
        let first = replace(&mut run, [&old[0], &new[0]], &tokens, &kept, number);
        for (i, j) in [(0, 1), (1, 0), (1, 1)] {
            let other = replace(&mut run, [&old[i], &new[j]], &tokens, &kept, number);
            assert_eq!(other, first, "{run}");
        }
    }
    // The event count counts, not the first byte.
    let replaced = replace(&mut run, [&SAMPLE_F, &[129, 0, 0]], &[], &[0], 1);
    assert_eq!(replaced.outcome, Ok(()));
    let replaced = replace(&mut run, [&[2, 0, 0], &[129, 0, 0]], &[], &[0], 1);
    assert_eq!(replaced.outcome, refusal(22, 0));
    run.finish_with_classes(&[(15, 60), (22, 1), (23, 120)], &[("replaced", 400)]);
}

/// The bytes of a bundle in the old edition and in the new one, with any marks.
fn both_editions(run: &mut Run, bundle: Bundle) -> [Vec<u8>; 2] {
    let marks: Vec<bool> = bundle.words.iter().map(|_| run.rng.below(2) == 0).collect();
    [None, Some(marks)].map(|marks| {
        let bundle = bundle.clone();
        Bundle { marks, ..bundle }.bytes()
    })
}
