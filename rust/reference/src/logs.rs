//! The rows of a log, straight from their definition and without a table.

use std::iter;

/// A row of a log.
#[derive(Clone, Debug, PartialEq, Eq)]
pub struct Row {
    /// How often each event occurs, for the events from 0 to n - 1.
    pub counts: Vec<usize>,
    /// For each event whether it is an allowed step: whether some prefix with
    /// these counts is followed by it in the log.
    pub allowed: Vec<bool>,
    /// How many words of the log have a prefix with these counts.
    pub traffic: usize,
}

/// The rows of a log over `n` events, all of them below `n`: the distinct count
/// vectors of its prefixes, in the order of first occurrence.
pub fn log_rows<W: AsRef<[u8]>>(n: usize, words: &[W]) -> Vec<Row> {
    // The empty word is a prefix even where there is no word.
    let of_words = words.iter().map(AsRef::as_ref).flat_map(|word| {
        (0..=word.len()).map(move |end| (counts(n, &word[..end]), word.get(end).copied()))
    });
    // The counts of each prefix, and the event that follows it.
    let prefixes: Vec<(Vec<usize>, Option<u8>)> =
        iter::once((counts(n, &[]), None)).chain(of_words).collect();

    let mut distinct: Vec<&Vec<usize>> = Vec::new();
    for (counts, _) in &prefixes {
        if !distinct.contains(&counts) {
            distinct.push(counts);
        }
    }

    let is_allowed = |counts: &Vec<usize>, event: u8| {
        prefixes
            .iter()
            .any(|(others, following)| *following == Some(event) && others == counts)
    };
    let passes =
        |word: &[u8], row: &Vec<usize>| (0..=word.len()).any(|end| counts(n, &word[..end]) == *row);
    distinct
        .into_iter()
        .map(|counts| Row {
            traffic: words
                .iter()
                .filter(|word| passes(word.as_ref(), counts))
                .count(),
            counts: counts.clone(),
            allowed: (0u8..)
                .take(n)
                .map(|event| is_allowed(counts, event))
                .collect(),
        })
        .collect()
}

/// How often each event below `n` occurs in a prefix.
fn counts(n: usize, prefix: &[u8]) -> Vec<usize> {
    (0u8..)
        .take(n)
        .map(|event| prefix.iter().filter(|&&other| other == event).count())
        .collect()
}
