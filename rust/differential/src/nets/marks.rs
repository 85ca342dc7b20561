//! Logs with completed words.

use super::small_log;
use crate::logs::random_word;
use crate::rng::Rng;
use reference::log_rows;

/// The words of a log that is small enough for a bundle of the new edition, and for each
/// whether it is completed.
pub fn marked_log(rng: &mut Rng) -> (usize, Vec<Vec<u8>>, Vec<bool>) {
    let (n, mut words, mut marks) = match rng.below(2) {
        0 => any_marks(rng),
        _ => sales(rng),
    };
    for _ in 0..rng.below(4) {
        let at = rng.within(0..=words.len());
        let (word, mark) = again(rng, &words, &marks);
        words.insert(at, word);
        marks.insert(at, mark);
    }
    (n, words, marks)
}

/// A small log, any of whose words are completed.
fn any_marks(rng: &mut Rng) -> (usize, Vec<Vec<u8>>, Vec<bool>) {
    let (n, words) = small_log(rng);
    let rarity = rng.choose(&[1, 2, 4, 8]);
    let marks = words.iter().map(|_| rng.below(rarity) == 0).collect();
    (n, words, marks)
}

/// Sales: one after another, each of one of a few words. A word that ends with a sale is
/// mostly completed; others are broken off, or go on with any event.
fn sales(rng: &mut Rng) -> (usize, Vec<Vec<u8>>, Vec<bool>) {
    let n = rng.within(1..=5);
    let kinds: Vec<Vec<u8>> = (0..rng.within(1..=3))
        .map(|_| random_word(rng, n, 1..=4))
        .collect();
    let most_rows = rng.choose(&[4, 8, 16, 24]);
    let mut words: Vec<Vec<u8>> = Vec::new();
    let mut marks = Vec::new();
    for _ in 0..rng.within(1..=8) {
        let count = rng.within(0..=3);
        let mut word: Vec<u8> = (0..count)
            .flat_map(|_| kinds[rng.below(kinds.len())].clone())
            .collect();
        let is_whole = rng.below(3) > 0;
        if !is_whole {
            word.truncate(rng.within(0..=word.len()));
            word.extend(random_word(rng, n, 0..=2));
        }
        words.push(word);
        marks.push(is_whole && rng.below(4) > 0);
        if log_rows(n, &words).len() > most_rows {
            words.pop();
            marks.pop();
        }
    }
    (n, words, marks)
}

/// A word that adds no row: empty, or one of the log or a beginning of it; completed or
/// not, whatever that one is.
fn again(rng: &mut Rng, words: &[Vec<u8>], marks: &[bool]) -> (Vec<u8>, bool) {
    if words.is_empty() || rng.below(3) == 0 {
        return (Vec::new(), rng.below(4) > 0);
    }
    let of_log = rng.below(words.len());
    let word = &words[of_log];
    if rng.below(2) == 0 {
        return (word.clone(), !marks[of_log]);
    }
    let end = rng.within(0..=word.len());
    (word[..end].to_vec(), rng.below(4) == 0)
}
