//! Two accepted files compared, as demand 3 has it: the same event count, every prefix in
//! the first log a prefix in the second, and every completed word of the first completed
//! in the second. Each prefix of the first log is continued with each event.

use crate::files::{BLOCK, CONTENTS, MAX_BUNDLE_SIZE};
use crate::logs::{table_of, TABLE};
use crate::nets::{completed, obeying_place, strictest_net, Certified, Completed};
use crate::places::{first_refused, Place};
use crate::rng::Rng;
use crate::run::Run;
use crate::screening::screen;
use reference::{Row, Screened, Tally};
use std::collections::BTreeSet;

/// A sealed file that was opened and accepted.
pub struct File {
    certified: Certified,
    /// The event count.
    pub n: usize,
    /// The log.
    pub words: Vec<Vec<u8>>,
    /// The places.
    pub net: Vec<Place>,
    /// As it was opened.
    pub bundle: Vec<u8>,
    /// As they were answered.
    pub counts: Tally,
}

impl File {
    /// Seals, opens and judges, with outputs and a table that held something else.
    pub fn accepted(run: &mut Run, certified: Certified) -> Self {
        let bundle = &certified.bundle;
        let bytes = bundle.bytes();
        let blocks = bytes.len().div_ceil(CONTENTS);
        let longer = run.rng.choose(&[0, 1, 1_000]);
        let sealed = run.seal(&bytes, blocks * BLOCK + longer);
        let file_len = sealed.outcome.expect("the length is allowed");
        let opened = run.open(&sealed.output[..file_len], MAX_BUNDLE_SIZE + longer);
        let bundle_len = opened.outcome.expect("the file is sound");

        let table = dirty_table(run, bundle.n);
        let opened = &opened.output[..bundle_len];
        let judged = run.judge(opened, &table).outcome;
        let counts = judged.unwrap_or_else(|refused| panic!("{refused:?}, {bundle:?}, {run}"));
        Self {
            n: bundle.n,
            words: bundle.words.clone(),
            net: bundle.places.iter().map(Place::from).collect(),
            bundle: opened.to_vec(),
            counts,
            certified,
        }
    }

    /// The log's prefixes: all beginnings of its words, and the empty word.
    pub fn prefixes(&self) -> BTreeSet<&[u8]> {
        let of_words = self.words.iter().flat_map(|word| beginnings(word));
        of_words.chain([[].as_slice()]).collect()
    }

    /// The completed words.
    pub fn completed(&self) -> BTreeSet<&[u8]> {
        let words = self.words.iter().enumerate();
        let completed = words.filter(|&(number, _)| self.certified.bundle.is_completed(number));
        completed.map(|(_, word)| word.as_slice()).collect()
    }

    /// Whether the net permits a longer word, by the definitions and by screening.
    pub fn permits(&self, run: &mut Run, longer: &[u8]) -> bool {
        let permits = first_refused(self.n, &self.net, longer).is_none();
        match screen(run, &self.bundle, longer) {
            Ok(Screened::Permitted) => assert!(permits, "{longer:?}, {run}"),
            Ok(Screened::Stopped { position, .. }) => {
                assert!(!permits, "{longer:?}, {run}");
                assert_eq!(position, longer.len() - 1, "the added event, {run}");
            }
            Err(refused) => panic!("{refused:?} for {longer:?}, {run}"),
        }
        permits
    }
}

fn beginnings(word: &[u8]) -> impl Iterator<Item = &[u8]> {
    (0..=word.len()).map(move |end| &word[..end])
}

fn dirty_table(run: &mut Run, n: usize) -> Vec<u16> {
    match run.rng.below(3) {
        0 => vec![65_535; TABLE + 7],
        1 => table_of(n, &[vec![0; 5], vec![0, 0]]),
        _ => run.rng.items(TABLE),
    }
}

/// Nets that permit all words of a log and obey the completed ones, with whole numbers of
/// any size. The first is the strictest of all, when that is known.
fn drawn_nets(run: &mut Run, file: &File) -> (bool, Vec<Vec<Place>>) {
    let Certified { bundle, rows, .. } = &file.certified;
    let completed = completed(bundle);
    let strictest = strictest_net(&mut run.rng, rows, &completed);
    let is_known = strictest.is_some();
    let mut nets: Vec<Vec<Place>> = strictest.into_iter().collect();
    for places in [0, 1, 1, 3, 10] {
        let place = |_| drawn_place(&mut run.rng, rows, &completed);
        nets.push((0..places).map(place).collect());
    }
    for net in &nets {
        for word in &bundle.words {
            let refused = first_refused(bundle.n, net, word);
            assert_eq!(refused, None, "{net:?}, {word:?}, {run}");
        }
        for word in &completed {
            let obeys = net.iter().all(|place| place.returns(&word.counts));
            assert!(obeys, "{net:?}, {word:?}, {run}");
        }
        run.note("nets that permit the first log");
    }
    (is_known, nets)
}

/// A place that fits and obeys. Where words are completed it is a multiple of one that
/// two bytes can hold.
fn drawn_place(rng: &mut Rng, rows: &[Row], completed: &[Completed]) -> Place {
    if completed.is_empty() {
        return Place::fitting(rng, rows);
    }
    let factor = rng.choose(&[1, 1, 1 << 20, 1 << 40]);
    loop {
        if let Some(place) = obeying_place(rng, rows, completed) {
            return Place::from(&place).times(factor);
        }
    }
}

/// Compares two files, of which the second log has all prefixes of the first, and all its
/// completed words as completed.
pub fn compare(run: &mut Run, first: &File, second: &File) {
    let n = first.n;
    let prefixes = first.prefixes();
    assert_eq!(n, second.n, "{run}");
    assert!(prefixes.is_subset(&second.prefixes()), "{run}");
    assert!(first.completed().is_subset(&second.completed()), "{run}");
    run.note("pairs");
    if !first.completed().is_empty() {
        run.note("pairs with completed words");
    }
    let equal = prefixes == second.prefixes() && first.completed() == second.completed();
    if equal {
        assert_eq!(first.counts, second.counts, "{run}");
        run.note("pairs with the same prefixes and completed words");
    } else {
        run.note("pairs with further ones in the second");
    }

    let (strictest_is_known, nets) = drawn_nets(run, first);
    for prefix in &prefixes {
        for event in 0..n as u8 {
            let longer = [prefix, [event].as_slice()].concat();
            let permitted = first.permits(run, &longer);
            let by_second = second.permits(run, &longer);
            assert!(by_second || !permitted, "{longer:?}, {run}");
            if equal {
                assert_eq!(permitted, by_second, "{longer:?}, {run}");
            }

            let by_nets: Vec<bool> = nets
                .iter()
                .map(|net| first_refused(n, net, &longer).is_none())
                .collect();
            let by_all = by_nets.iter().all(|&permits| permits);
            assert!(by_all || !permitted, "{longer:?}, {nets:?}, {run}");
            // The first net refuses nothing that every net permits, either.
            if strictest_is_known {
                assert_eq!(by_nets[0], permitted, "{longer:?}, {nets:?}, {run}");
                run.note("words compared with the strictest net");
            }

            run.note("longer words");
            run.note(match (permitted, by_second) {
                (true, _) if prefixes.contains(longer.as_slice()) => "permitted, in the first log",
                (true, _) => "permitted, not in the first log",
                (false, true) => "permitted by the second only",
                (false, false) => "refused by both",
            });
            if by_nets[usize::from(strictest_is_known)..].contains(&false) {
                run.note("refused by a random net");
            }
        }
    }
}
