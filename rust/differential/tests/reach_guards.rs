//! The search for a word: guards around the bundle, the five bytes and the answer, at every
//! alignment.

use differential::bundles::{five_long_words, Place, SAMPLE_A, SAMPLE_E, SAMPLE_NEW};
use differential::guarded::carried::ALIGNMENTS;
use differential::guarded::Guarded;
use differential::reaching::{Shape, MOST};
use differential::run::Run;
use differential::screening::net;
use hovmekhar::ffi;

/// How many buffers there are: the bundle, the five bytes and the answer.
const BUFFERS: usize = 3;

/// A call, and what has to come of it.
struct Case {
    bundle: Vec<u8>,
    wanted: usize,
    /// The number that is returned.
    number: u32,
    /// The numbers of the answer, from `answer[0]` on.
    answered: Vec<u64>,
    /// The bytes in front of the five afterwards; the rest stays.
    word: Vec<u8>,
}

impl Case {
    fn found(bundle: &[u8], wanted: usize, word: &[u8]) -> Self {
        Self {
            bundle: bundle.to_vec(),
            wanted,
            number: 0,
            answered: vec![word.len() as u64],
            word: word.to_vec(),
        }
    }

    fn none(bundle: &[u8], wanted: usize) -> Self {
        Self {
            bundle: bundle.to_vec(),
            wanted,
            number: ffi::NONE,
            answered: Vec::new(),
            word: Vec::new(),
        }
    }

    fn refused(bundle: &[u8], wanted: usize, number: u32, spot: u64) -> Self {
        Self {
            bundle: bundle.to_vec(),
            wanted,
            number,
            answered: vec![spot],
            word: Vec::new(),
        }
    }

    /// Makes the call with guards of these lengths before the buffers, and checks that nothing
    /// changed but what is to be written.
    fn between_guards(&self, run: &mut Run, fronts: [usize; BUFFERS]) {
        let [bundle, word, answer] = fronts;
        let mut bytes =
            |front, lent: &[u8]| Guarded::new(&run.rng.bytes(front), lent, &run.rng.bytes(100));
        let bundle = bytes(bundle, &self.bundle);
        // No event that is written is the byte that was there.
        let mut word = bytes(word, &[77; MOST]);
        let numbers: Vec<u64> = run.rng.items(answer);
        let mut answer = Guarded::new(&numbers, &run.rng.numbers::<4>(), &run.rng.numbers::<4>());
        let four: &mut ffi::Answer = answer.lent_mut().try_into().expect("four numbers");
        let five: &mut ffi::Word = word.lent_mut().try_into().expect("five bytes");
        // That there is no word is a result.
        run.count(u8::try_from(self.number).unwrap_or(0));
        let number = ffi::reach(bundle.lent(), self.wanted, five, four);

        let place = format!("after {fronts:?}, {run}");
        let (length, answered) = (self.word.len(), self.answered.len());
        assert_eq!(number, self.number, "{place}");
        assert_eq!(answer.lent()[..answered], self.answered, "{place}");
        assert_eq!(word.lent()[..length], self.word, "{place}");
        assert!(bundle.kept_beyond(0), "bundle or its guards: {place}");
        assert!(word.kept_beyond(length), "word or its guards: {place}");
        assert!(answer.kept_beyond(answered), "answer or guards: {place}");
    }
}

/// Words of each length on small nets and on large ones.
fn found(run: &mut Run) -> Vec<Case> {
    let mut cases = Vec::new();
    for length in 0..=MOST {
        for shape in Shape::ALL {
            let goal = shape.goal(&mut run.rng, MOST + 2, length);
            cases.push(Case::found(&goal.bundle.bytes(), goal.wanted, &goal.word));
        }
    }
    cases
}

/// No word, and refusals. The wanted event is looked at last.
fn others(run: &mut Run) -> Vec<Case> {
    let a = SAMPLE_A.as_slice();
    let five_words = five_long_words(1);
    let too_far = Shape::Chain.goal(&mut run.rng, MOST + 2, MOST + 1);
    let never = Place {
        m: 9,
        ins: vec![0; 2],
        outs: vec![1, 10],
    };
    vec![
        Case::none(&SAMPLE_E, 0),
        Case::none(&too_far.bundle.bytes(), too_far.wanted),
        Case::none(&net(2, vec![never; 64]).bytes(), 1),
        Case::refused(&[], 9, 4, 0),
        Case::refused(&a[..28], 9, 6, 27),
        Case::refused(&[0, 0, 0], 9, 7, 0),
        Case::refused(&five_words, 9, 8, 2 + 4 * 256),
        Case::refused(a, 2, 15, 0),
        Case::refused(&SAMPLE_NEW, usize::MAX, 15, 0),
    ]
}

/// Nothing changes but what the answer allows, whatever else it held.
#[test]
fn guards_stay_as_they_were() {
    let mut run = Run::start("reach_guards");
    let cases = [found(&mut run), others(&mut run)].map(Vec::into_iter);
    let cases: Vec<Case> = cases.into_iter().flatten().collect();
    for alignment in 0..ALIGNMENTS {
        for case in &cases {
            for side in 0..BUFFERS {
                let mut fronts = [0; BUFFERS].map(|_| ALIGNMENTS + run.rng.below(ALIGNMENTS));
                fronts[side] = ALIGNMENTS + alignment;
                case.between_guards(&mut run, fronts);
            }
        }
    }
    let times = ALIGNMENTS * BUFFERS;
    let refused = [4, 6, 7, 8].map(|number| (number, times));
    let others = [(0, (3 * 6 + 3) * times), (15, 2 * times)];
    run.finish(&[refused.as_slice(), &others].concat());
}
