//! Pairs of accepted bundles, of which the second has all prefixes of the first one's log, and
//! all its completed words as completed.

use crate::bundles::MAX_WORDS;
use crate::nets::{certified_marked, marked_log, small_log, Certified};
use crate::run::Run;

/// Words, each with its mark: whether it is completed.
pub type Words = Vec<(Vec<u8>, bool)>;

/// A small log: in the new edition with completed words.
fn any_log(run: &mut Run, is_new: bool) -> (usize, Words) {
    if is_new {
        let (n, words, marks) = marked_log(&mut run.rng);
        return (n, words.into_iter().zip(marks).collect());
    }
    let (n, words) = small_log(&mut run.rng);
    (n, words.into_iter().map(|word| (word, false)).collect())
}

/// A beginning of a word, often all of it. One that is whole can keep its mark.
fn beginning_of(run: &mut Run, (word, mark): &(Vec<u8>, bool)) -> (Vec<u8>, bool) {
    let end = run.rng.within(0..=word.len());
    let end = run.rng.choose(&[end, word.len()]);
    let keeps = *mark && end == word.len() && run.rng.below(4) > 0;
    (word[..end].to_vec(), keeps)
}

/// Words whose prefixes are all prefixes of these words: some of them, cut. Where they are
/// completed, they are so there.
pub fn part_of(run: &mut Run, words: &Words) -> Words {
    let rarity = run.rng.within(1..=4);
    let mut part = Vec::new();
    for word in words {
        if run.rng.below(rarity) == 0 {
            part.push(beginning_of(run, word));
        }
    }
    run.rng.shuffled(&part)
}

/// Words with the same prefixes as these and the same completed words: without partial ones
/// that begin another one, with some twice and some beginnings, in another order.
pub fn rewritten(run: &mut Run, words: &Words) -> Words {
    let begins_another =
        |word: &Vec<u8>| words.iter().any(|(w, _)| w != word && w.starts_with(word));
    let mut others = words.clone();
    others.sort();
    others.dedup();
    others.retain(|(word, mark)| *mark || !begins_another(word));
    for word in words {
        if run.rng.below(3) == 0 && others.len() < MAX_WORDS {
            others.push(beginning_of(run, word));
        }
    }
    run.rng.shuffled(&others)
}

/// Two small bundles, as this makes the log of the first of that of the second. In the new
/// edition there are completed words; a log without any can have either edition. Nothing where
/// a log needs more places than there can be.
pub fn pair(
    run: &mut Run,
    is_new: bool,
    make_first: fn(&mut Run, &Words) -> Words,
) -> Option<[Certified; 2]> {
    let (n, words) = any_log(run, is_new);
    let first = make_first(run, &words);
    let [first, second] = [first, words].map(|words| {
        let (words, marks): (Vec<_>, Vec<bool>) = words.into_iter().unzip();
        let is_old = !marks.contains(&true) && (!is_new || run.rng.below(2) == 0);
        certified_marked(&mut run.rng, n, words, (!is_old).then_some(marks))
    });
    Some([first?, second?])
}
