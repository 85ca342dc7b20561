//! The calls of the carried engine, which lend tokens and the events so far.

use super::{Outcome, Run, Written};
use crate::screening::read_net;
use hovmekhar::ffi;
use reference::Step;

/// What a start or a replacement did, the same on both sides.
#[derive(Clone, Debug, PartialEq, Eq)]
pub struct Carried<R> {
    /// The answer.
    pub outcome: Outcome<R>,
    /// All tokens that were lent, after the call.
    pub tokens: Vec<u64>,
}

/// What a step did, the same on both sides.
#[derive(Clone, Debug, PartialEq, Eq)]
pub struct Played {
    /// The answer.
    pub outcome: Outcome<Step>,
    /// All tokens that were lent, after the call.
    pub tokens: Vec<u64>,
    /// The whole buffer of the events so far, after the call.
    pub kept: Vec<u8>,
}

impl Run {
    /// Starts a run of the engine on both sides, with copies of these tokens, and compares.
    /// Only a result may change tokens, and only those of the places.
    pub fn start_tokens(&mut self, bundle: &[u8], tokens: &[u64]) -> Carried<usize> {
        let (outcome, tokens) = self.compare(
            [bundle],
            tokens.to_vec(),
            |[bundle], tokens, answer| ffi::start(bundle, tokens, answer),
            |[bundle], tokens| reference::start(bundle, tokens),
            |&number| Written {
                number: 0,
                answer: vec![number as u64],
                items: place_count(bundle),
            },
            super::nothing,
        );
        Carried { outcome, tokens }
    }

    /// Plays an event on both sides, with copies of these tokens and of this buffer, and
    /// compares. Only where the tokens are moved they may change, and only those of the
    /// places, and of the buffer only the byte behind the events so far. Notes whether the
    /// event is permitted or stopped.
    pub fn step_tokens(
        &mut self,
        bundle: &[u8],
        tokens: &[u64],
        kept: &[u8],
        number: usize,
        event: usize,
    ) -> Played {
        let mut our_kept = self.guarded(kept);
        let mut kept = kept.to_vec();
        let (outcome, tokens) = self.compare(
            [bundle],
            tokens.to_vec(),
            |[bundle], tokens, answer| {
                ffi::step(bundle, tokens, our_kept.lent_mut(), number, event, answer)
            },
            |[bundle], tokens| reference::step(bundle, tokens, &mut kept, number, event),
            |step| written(step, bundle),
            super::nothing,
        );
        assert!(our_kept.lent() == kept, "the kept events differ: {self}");
        let behind = match outcome {
            Ok(Step::Moved(next)) => next - 1..next,
            _ => 0..0,
        };
        assert!(
            our_kept.kept_but(behind),
            "changed beyond the event, in the buffer or around it: {self}"
        );
        match outcome {
            Ok(Step::Moved(_)) => self.note("permitted"),
            Ok(Step::Stopped { .. }) => self.note("stopped"),
            Err(_) => (),
        }
        Played {
            outcome,
            tokens,
            kept,
        }
    }

    /// Replaces a net on both sides, with copies of these tokens, and compares. Only a result
    /// may change tokens, and only those of the new net's places. Notes results.
    pub fn replace_tokens(
        &mut self,
        nets: [&[u8]; 2],
        tokens: &[u64],
        kept: &[u8],
        number: usize,
    ) -> Carried<()> {
        let [old, new] = nets;
        let (outcome, tokens) = self.compare(
            [old, new, kept],
            tokens.to_vec(),
            |[old, new, kept], tokens, answer| ffi::replace(old, new, tokens, kept, number, answer),
            |[old, new, kept], tokens| reference::replace(old, new, tokens, kept, number),
            |()| Written {
                number: 0,
                answer: Vec::new(),
                items: place_count(new),
            },
            super::nothing,
        );
        if outcome.is_ok() {
            self.note("replaced");
        }
        Carried { outcome, tokens }
    }
}

fn written(step: &Step, bundle: &[u8]) -> Written {
    match *step {
        Step::Moved(number) => Written {
            number: 0,
            answer: vec![number as u64],
            items: place_count(bundle),
        },
        Step::Stopped {
            position,
            place,
            shortfall,
        } => Written {
            number: ffi::STOPPED,
            answer: [position, place, shortfall]
                .map(|number| number as u64)
                .to_vec(),
            items: 0,
        },
    }
}

fn place_count(bundle: &[u8]) -> usize {
    let (_, places) = read_net(bundle).expect("a bundle that is played on");
    places.len()
}
