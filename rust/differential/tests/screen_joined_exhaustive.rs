//! Screening with two nets: every two small nets, with every short word.

use differential::bundles::Place;
use differential::run::{Outcome, Run};
use differential::screening::{net, screen_joined};
use reference::Screened;

/// All places over `n` events with numbers below `bound`.
fn places(n: usize, bound: u16) -> Vec<Place> {
    let numbers = 1 + 2 * n;
    let count = usize::from(bound).pow(numbers as u32);
    let digit = |code: usize, i: usize| {
        let shifted = code / usize::from(bound).pow(i as u32);
        (shifted % usize::from(bound)) as u16
    };
    (0..count)
        .map(|code| Place {
            m: digit(code, 0),
            ins: (1..=n).map(|i| digit(code, i)).collect(),
            outs: (1 + n..numbers).map(|i| digit(code, i)).collect(),
        })
        .collect()
}

/// All lists of up to so many of these items, the shorter ones first.
fn lists<T: Clone>(items: &[T], most: usize) -> Vec<Vec<T>> {
    let mut all = vec![Vec::new()];
    let mut longest = all.clone();
    for _ in 0..most {
        let longer = |list: &Vec<T>| {
            let behind = |item| [list.as_slice(), std::slice::from_ref(item)].concat();
            items.iter().map(behind).collect::<Vec<_>>()
        };
        longest = longest.iter().flat_map(longer).collect();
        all.extend(longest.clone());
    }
    all
}

/// All nets of up to so many of these places.
fn nets(n: usize, places: &[Place], most: usize) -> Vec<Vec<u8>> {
    let nets = lists(places, most).into_iter();
    nets.map(|places| net(n, places).bytes()).collect()
}

/// Each two of the nets with each word: the answer is that of the definitions, and the word
/// is permitted exactly when both nets permit it.
fn every_two(run: &mut Run, nets: &[Vec<u8>], words: &[Vec<u8>]) {
    for word in words {
        let alone: Vec<Outcome<Screened>> = nets.iter().map(|net| run.screen(net, word)).collect();
        for (first, first_alone) in nets.iter().zip(&alone) {
            for (second, second_alone) in nets.iter().zip(&alone) {
                let joined = screen_joined(run, first, second, word);
                let both = [first_alone, second_alone]
                    .iter()
                    .all(|&&outcome| outcome == Ok(Screened::Permitted));
                assert_eq!(joined == Ok(Screened::Permitted), both, "{word:?}, {run}");
            }
        }
    }
}

/// One event, numbers 0 to 2 and nets of up to one place.
#[test]
fn numbers_up_to_two() {
    let mut run = Run::start("numbers_up_to_two");
    let nets = nets(1, &places(1, 3), 1);
    assert_eq!(nets.len(), 1 + 27);
    every_two(&mut run, &nets, &lists(&[0], 4));
    run.finish_with_classes(
        &[(0, 5 * 28 * (1 + 28))],
        &[("permitted", 1_000), ("stopped", 1_000)],
    );
}

/// One event, numbers 0 and 1 and nets of up to two places.
#[test]
fn up_to_two_places() {
    let mut run = Run::start("up_to_two_places");
    let nets = nets(1, &places(1, 2), 2);
    assert_eq!(nets.len(), 1 + 8 + 64);
    every_two(&mut run, &nets, &lists(&[0], 3));
    run.finish_with_classes(
        &[(0, 4 * 73 * (1 + 73))],
        &[("permitted", 5_000), ("stopped", 5_000)],
    );
}

/// Two events, numbers 0 and 1 and nets of up to one place.
#[test]
fn two_events() {
    let mut run = Run::start("two_events");
    let nets = nets(2, &places(2, 2), 1);
    assert_eq!(nets.len(), 1 + 32);
    every_two(&mut run, &nets, &lists(&[0, 1], 3));
    run.finish_with_classes(
        &[(0, 15 * 33 * (1 + 33))],
        &[("permitted", 4_000), ("stopped", 4_000)],
    );
}
