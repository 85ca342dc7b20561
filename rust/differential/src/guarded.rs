//! Lent buffers with guards on both sides.

pub mod carried;
pub mod rewritten;

use crate::run::Run;
use hovmekhar::ffi;
use std::hint::black_box;
use std::ops::Range;

/// A buffer to lend to a call, inside a larger allocation, with a copy of how
/// all of it was before the call.
pub struct Guarded<T> {
    now: Vec<T>,
    before: Vec<T>,
    lent: Range<usize>,
}

impl<T: Copy + PartialEq> Guarded<T> {
    /// A buffer that holds `lent`, between two guards.
    pub fn new(front: &[T], lent: &[T], back: &[T]) -> Self {
        let now = [front, lent, back].concat();
        Self {
            before: now.clone(),
            now,
            lent: front.len()..front.len() + lent.len(),
        }
    }

    /// The buffer without its guards.
    pub fn lent(&self) -> &[T] {
        &self.now[self.lent.clone()]
    }

    /// The buffer without its guards, to write to.
    pub fn lent_mut(&mut self) -> &mut [T] {
        &mut self.now[self.lent.clone()]
    }

    /// Whether both guards and all of the buffer but its first `written` items
    /// are as they were.
    pub fn kept_beyond(&self, written: usize) -> bool {
        self.kept_but(0..written)
    }

    /// Whether both guards and all of the buffer but these items are as they were.
    pub fn kept_but(&self, written: Range<usize>) -> bool {
        // The compiler may not conclude anything from what was lent how.
        let now = black_box(self.now.as_slice());
        let start = self.lent.start + written.start;
        let end = self.lent.start + written.end;
        now[..start] == self.before[..start] && now[end..] == self.before[end..]
    }
}

/// The inputs of a call that only reads them, and what has to come of it.
pub struct ReadOnly<const INPUTS: usize> {
    /// The inputs.
    pub inputs: [Vec<u8>; INPUTS],
    /// The number that is returned.
    pub number: u32,
    /// The numbers of the answer, from `answer[0]` on.
    pub answered: Vec<u64>,
}

impl<const INPUTS: usize> ReadOnly<INPUTS> {
    /// Makes the call with guards of these lengths before the inputs, and checks that
    /// nothing changed but the numbers to be answered.
    pub fn between_guards(
        &self,
        run: &mut Run,
        fronts: [usize; INPUTS],
        call: impl FnOnce([&[u8]; INPUTS], &mut ffi::Answer) -> u32,
    ) {
        let rng = &mut run.rng;
        let inputs: [Guarded<u8>; INPUTS] = std::array::from_fn(|i| {
            Guarded::new(&rng.bytes(fronts[i]), &self.inputs[i], &rng.bytes(100))
        });
        let mut answer = Guarded::new(
            &rng.numbers::<4>(),
            &rng.numbers::<4>(),
            &rng.numbers::<4>(),
        );
        let four: &mut ffi::Answer = answer.lent_mut().try_into().expect("four numbers");
        // A word that is stopped is a result.
        run.count(u8::try_from(self.number).unwrap_or(0));
        let number = call(inputs.each_ref().map(Guarded::lent), four);

        let place = format!("inputs after {fronts:?}, {run}");
        let answered = self.answered.len();
        assert_eq!(number, self.number, "{place}");
        assert_eq!(answer.lent()[..answered], self.answered, "{place}");
        let kept = inputs.iter().all(|input| input.kept_beyond(0));
        assert!(kept, "an input or its guards: {place}");
        assert!(
            answer.kept_beyond(answered),
            "answer or its guards: {place}"
        );
    }
}

#[cfg(test)]
mod tests {
    use super::Guarded;

    /// Which items of a buffer of three, with guards of two, may change when the
    /// first is written: only that one.
    #[test]
    fn a_change_elsewhere_is_noticed() {
        for changed in 0..7 {
            let mut buffer = Guarded::new(&[1, 2], &[3, 4, 5], &[6, 7]);
            buffer.now[changed] += 1;
            assert_eq!(buffer.kept_beyond(1), changed == 2, "item {changed}");
            assert!(!buffer.kept_beyond(0), "item {changed}");
            assert_eq!(buffer.kept_but(1..2), changed == 3, "item {changed}");
        }
    }
}
