//! The calls of the carried engine, between guards.

use super::Guarded;
use crate::run::Run;
use hovmekhar::ffi;

/// Alignments to try: all within a cache line, more than any load asks for. Those of tokens
/// and answers are in numbers.
pub const ALIGNMENTS: usize = 64;

/// How many buffers there are: two bundles, the tokens, the kept events and the answer.
pub const BUFFERS: usize = 5;

/// Which call is made, and with which numbers.
#[derive(Clone, Copy, Debug)]
pub enum Call {
    /// A start.
    Start,
    /// A step, with the number of the events so far, and an event.
    Step(usize, usize),
    /// A replacement, with the number of the events so far.
    Replace(usize),
}

/// What is lent to a call; what it does not take is empty.
#[derive(Clone, Debug, Default)]
pub struct Lent {
    /// The bundle, or the old one.
    pub bundle: Vec<u8>,
    /// The new bundle.
    pub new: Vec<u8>,
    /// The tokens.
    pub tokens: Vec<u64>,
    /// The events so far.
    pub kept: Vec<u8>,
}

/// A call, and what has to come of it.
#[derive(Clone, Debug)]
pub struct Case {
    /// The call.
    pub call: Call,
    /// Its buffers.
    pub lent: Lent,
    /// The number that is returned.
    pub number: u32,
    /// The numbers of the answer, from `answer[0]` on.
    pub answered: Vec<u64>,
    /// The tokens in front afterwards; the rest stays.
    pub left: Vec<u64>,
}

impl Case {
    /// Makes the call with guards of these lengths before the buffers, and checks that nothing
    /// changed but what is to be written.
    fn between_guards(&self, run: &mut Run, fronts: [usize; BUFFERS]) {
        let [bundle, new, tokens, kept, answer] = fronts;
        let mut bytes =
            |front, lent: &[u8]| Guarded::new(&run.rng.bytes(front), lent, &run.rng.bytes(100));
        let bundle = bytes(bundle, &self.lent.bundle);
        let new = bytes(new, &self.lent.new);
        let mut kept = bytes(kept, &self.lent.kept);
        let numbers: Vec<u64> = run.rng.items(tokens);
        let mut tokens = Guarded::new(&numbers, &self.lent.tokens, &run.rng.items(70));
        let numbers: Vec<u64> = run.rng.items(answer);
        let mut answer = Guarded::new(&numbers, &run.rng.numbers::<4>(), &run.rng.numbers::<4>());
        let four: &mut ffi::Answer = answer.lent_mut().try_into().expect("four numbers");
        // An event that is stopped is a result.
        run.count(u8::try_from(self.number).unwrap_or(0));
        let (old, lent) = (bundle.lent(), tokens.lent_mut());
        let number = match self.call {
            Call::Start => ffi::start(old, lent, four),
            Call::Step(number, event) => ffi::step(old, lent, kept.lent_mut(), number, event, four),
            Call::Replace(number) => ffi::replace(old, new.lent(), lent, kept.lent(), number, four),
        };

        let place = format!("{:?} after {fronts:?}, {run}", self.call);
        let answered = self.answered.len();
        assert_eq!(number, self.number, "{place}");
        assert_eq!(answer.lent()[..answered], self.answered, "{place}");
        let left = self.left.len();
        assert_eq!(tokens.lent()[..left], self.left, "{place}");
        assert!(bundle.kept_beyond(0), "bundle or its guards: {place}");
        assert!(new.kept_beyond(0), "new bundle or its guards: {place}");
        assert!(tokens.kept_beyond(left), "tokens or their guards: {place}");
        assert!(answer.kept_beyond(answered), "answer or guards: {place}");
        let written = match self.call {
            Call::Step(number, event) if self.number == 0 => {
                assert_eq!(kept.lent()[number], event as u8, "{place}");
                number..number + 1
            }
            _ => 0..0,
        };
        assert!(kept.kept_but(written), "kept events or guards: {place}");
    }

    /// At this alignment of each buffer, with any of the others.
    pub fn at_alignment(&self, run: &mut Run, alignment: usize) {
        for side in 0..BUFFERS {
            let mut fronts = [0; BUFFERS].map(|_| ALIGNMENTS + run.rng.below(ALIGNMENTS));
            fronts[side] = ALIGNMENTS + alignment;
            self.between_guards(run, fronts);
        }
    }
}

/// Makes the calls at every alignment of each buffer: each so many times.
pub fn at_every_alignment(run: &mut Run, cases: &[Case]) -> usize {
    for alignment in 0..ALIGNMENTS {
        for case in cases {
            case.at_alignment(run, alignment);
        }
    }
    ALIGNMENTS * BUFFERS
}
