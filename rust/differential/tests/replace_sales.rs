//! Sales of starts, steps and replacements: after any number of replacements a sale goes on
//! just as if all its events had been played on its net from the start, and one that is refused
//! leaves it as it was.

use differential::bundles::MAX_PLACES;
use differential::engine::{any_tokens, play, replace, room, screened, start, step};
use differential::run::{refusal, Run};
use differential::screening::{another_net, any_net, screen};
use reference::{Refusal, Screened};

/// How many calls a sale has.
const TURNS: usize = 50;

/// What the caller of the engine keeps, and the events that were permitted.
struct Sale {
    net: usize,
    tokens: Vec<u64>,
    kept: Vec<u8>,
    number: usize,
    word: Vec<u8>,
    /// How many replacements were made.
    replacements: usize,
}

impl Sale {
    /// A start, with tokens and a buffer of any contents, which have room for all nets and for
    /// all events.
    fn start(run: &mut Run, nets: &[Vec<u8>]) -> Self {
        let tokens = any_tokens(&mut run.rng, MAX_PLACES + 2);
        let started = start(run, &nets[0], &tokens);
        Self {
            net: 0,
            tokens: started.tokens,
            kept: room(&mut run.rng, TURNS),
            number: started.outcome.expect("a sound head"),
            word: Vec::new(),
            replacements: 0,
        }
    }

    /// A step, which is answered as screening answers for all events on the net of the sale.
    fn step(&mut self, run: &mut Run, nets: &[Vec<u8>], event: u8) {
        let net = &nets[self.net];
        let longer = [self.word.as_slice(), &[event]].concat();
        let expected = screen(run, net, &longer);
        let played = step(
            run,
            net,
            &self.tokens,
            &self.kept,
            self.number,
            event.into(),
        );
        let (outcome, next) = screened(played.outcome);
        assert_eq!(outcome, expected, "{run}");
        let Some(next) = next else {
            assert_eq!(
                (&played.tokens, &played.kept),
                (&self.tokens, &self.kept),
                "{run}"
            );
            return;
        };
        (self.tokens, self.kept, self.number) = (played.tokens, played.kept, next);
        self.word = longer;
        assert_eq!(self.number, self.word.len(), "{run}");
        assert_eq!(self.kept[..self.number], self.word, "{run}");
        if self.replacements > 0 {
            run.note("steps that are permitted behind a replacement");
        }
    }

    /// A replacement, which succeeds exactly when the other net permits all events so far, and
    /// leaves what a sale on that net has behind them.
    fn replace(&mut self, run: &mut Run, nets: &[Vec<u8>], other: usize) {
        let both = [self.net, other].map(|net| nets[net].as_slice());
        let replaced = replace(run, both, &self.tokens, &self.kept, self.number);
        let Some(position) = stop(run, both[1], &self.word) else {
            let afresh = play(run, both[1], &self.tokens, &self.word);
            assert_eq!(afresh.outcome, Ok(Screened::Permitted), "{run}");
            assert_eq!(
                (replaced.outcome, &replaced.tokens),
                (Ok(()), &afresh.tokens),
                "{run}"
            );
            (self.tokens, self.net) = (replaced.tokens, other);
            self.replacements += 1;
            return;
        };
        assert_eq!(replaced.outcome, refusal(23, position), "{run}");
        assert_eq!(replaced.tokens, self.tokens, "{run}");
    }

    /// Replacements that are refused for what is lent to them: nothing is written.
    fn replace_in_vain(&self, run: &mut Run, nets: &[Vec<u8>], other: usize) {
        let [old, new] = [self.net, other].map(|net| nets[net].as_slice());
        let other_n = [new[0] % 128 % 12 + 1, 0, 0];
        // The bundle ends inside its last place, or where it has none, before the count.
        let cut = &new[..new.len() - 1];
        let kept = &self.kept[..self.number];
        let more = self.number + 1;
        for (nets, number, refused) in [
            ([old, new], 65_536, Some((14, 65_535))),
            ([old, new], more, Some((3, more))),
            ([&old[..1], new], self.number, Some((6, 1))),
            ([old, cut], self.number, None),
            ([old, &other_n], self.number, Some((22, 0))),
        ] {
            let replaced = replace(run, nets, &self.tokens, kept, number);
            let refusal = replaced.outcome.expect_err("each of these is refused");
            let expected = refused.map_or(refusal, |(number, spot)| Refusal { number, spot });
            assert_eq!(refusal, expected, "{run}");
            assert_eq!(replaced.tokens, self.tokens, "{run}");
        }
    }
}

/// Where a net stops on a word.
fn stop(run: &mut Run, net: &[u8], word: &[u8]) -> Option<usize> {
    match screen(run, net, word).expect("events that are there") {
        Screened::Permitted => None,
        Screened::Stopped { position, .. } => Some(position),
    }
}

/// Any call of a sale; its next event is this one, mostly.
fn any_call(run: &mut Run, sale: &mut Sale, nets: &[Vec<u8>], event: u8) {
    let other = run.rng.below(nets.len());
    match run.rng.below(10) {
        0..=2 => sale.replace(run, nets, other),
        3 => sale.replace_in_vain(run, nets, other),
        4 => {
            // Sometimes one that is not there.
            let n = nets[0][0] % 128;
            let event = run.rng.within(0..=n.into()) as u8;
            sale.step(run, nets, event);
        }
        _ => sale.step(run, nets, event),
    }
}

/// Nets over the same events, which are such for the same word.
#[test]
fn sales() {
    let mut run = Run::start("replace_sales::sales");
    for _ in 0..run.cases(80) {
        let (first, word) = any_net(&mut run.rng);
        let others = [(); 3].map(|()| another_net(&mut run.rng, &first, &word).bytes());
        let nets = [vec![first.bytes()], others.to_vec()].concat();
        let mut sale = Sale::start(&mut run, &nets);
        for event in word.into_iter().chain([0; TURNS]).take(TURNS) {
            any_call(&mut run, &mut sale, &nets, event);
        }
        run.note(match sale.replacements {
            0 => "sales without a replacement",
            1 => "sales with one",
            _ => "sales with several",
        });
    }
    run.finish_with_classes(
        &[
            (3, 200),
            (6, 400),
            (14, 200),
            (15, 50),
            (22, 200),
            (23, 200),
        ],
        &[
            ("replaced", 400),
            ("sales with several", 50),
            ("steps that are permitted behind a replacement", 800),
            ("stopped", 400),
        ],
    );
}

/// Two nets, each of which permits what the other stops: the sale goes on with either.
#[test]
fn there_and_back() {
    let mut run = Run::start("there_and_back");
    // Two events and a place: event 0 takes a token of it, or event 1 does.
    let nets = [
        vec![2, 0, 1, 1, 0, 0, 0, 0, 0, 1, 0, 0, 0],
        vec![2, 0, 1, 1, 0, 0, 0, 0, 0, 0, 0, 1, 0],
    ];
    let mut sale = Sale::start(&mut run, &nets);
    for (event, net) in [(0, 1), (1, 0), (0, 1), (0, 0), (1, 0), (1, 1)] {
        sale.step(&mut run, &nets, event);
        sale.replace(&mut run, &nets, net);
    }
    // Event 0 was permitted once more on the second net, so the first stops from then on.
    assert_eq!((sale.word.as_slice(), sale.net), ([0, 1, 0].as_slice(), 1));
    assert_eq!((sale.replacements, sale.tokens[0]), (4, 0));
    run.finish_with_classes(&[(23, 2)], &[("replaced", 4), ("stopped", 3)]);
}
