//! The sale that keeps its tokens and its events itself, with one net and with several in turn.

use differential::bundles::{SAMPLE_A, SAMPLE_NEW};
use differential::engine::any_event;
use differential::run::Run;
use differential::screening::{another_net, any_net, ONE_FOLLOWS};
use hovmekhar::{Refusal, Sale, Screened, MAX_WORD_EVENTS};

/// A sale has screening's answers, the initial tokens when it is idle, and goes on behind an
/// event that is stopped or refused.
#[test]
fn sales() {
    let mut run = Run::start("sale_wrapper::sales");
    for _ in 0..run.cases(200) {
        let (bundle, _) = any_net(&mut run.rng);
        let bytes = bundle.bytes();
        let mut sale = Sale::start(bytes.as_slice()).expect("a sound head");
        let initial: Vec<u64> = bundle.places.iter().map(|place| place.m.into()).collect();
        assert_eq!((sale.bundle(), sale.tokens()), (&*bytes, &*initial));
        assert_eq!(sale.initial(), initial, "{run}");
        assert!(sale.is_idle() && sale.events() == 0, "{run}");
        let mut word = Vec::new();
        for _ in 0..40 {
            let event = any_event(&mut run.rng, bundle.n);
            let byte = u8::try_from(event).unwrap_or(255);
            let longer = [word.as_slice(), &[byte]].concat();
            let before = sale.clone();
            let answer = sale.step(event);
            assert_eq!(answer, hovmekhar::screen(&bytes, &longer), "{run}");
            match answer {
                Ok(Screened::Permitted) => word = longer,
                _ => assert_eq!(sale, before, "{run}"),
            }
            assert_eq!((sale.word(), sale.events()), (&*word, word.len()), "{run}");
            assert_eq!(sale.is_idle(), sale.tokens() == initial, "{run}");
            run.note(if sale.is_idle() { "idle" } else { "busy" });
        }
        run.count(0);
    }
    run.finish_with_classes(&[], &[("idle", 500), ("busy", 1_000)]);
}

/// A completed sale leaves the terminal idle, and closing does not.
#[test]
fn idle_again() -> Result<(), Refusal> {
    let mut sale = Sale::start(SAMPLE_NEW)?;
    for (event, tokens, is_idle) in [
        (0, [0, 1], false),
        (1, [1, 0], true),
        (0, [0, 1], false),
        (1, [1, 0], true),
        (2, [0, 0], false),
    ] {
        assert_eq!(sale.step(event)?, Screened::Permitted);
        assert_eq!((sale.tokens(), sale.is_idle()), (&tokens[..], is_idle));
    }
    let stopped = Screened::Stopped {
        position: 5,
        place: 0,
        shortfall: 1,
    };
    assert_eq!(sale.step(0)?, stopped);
    Ok(())
}

/// As many events as a word can have, and none more, whatever it is.
#[test]
fn longest_sale() -> Result<(), Refusal> {
    let mut sale = Sale::start([1, 0, 0])?;
    for _ in 0..MAX_WORD_EVENTS {
        assert_eq!(sale.step(0)?, Screened::Permitted);
    }
    for event in [0, 1, usize::MAX] {
        let expected = Refusal {
            number: Refusal::WORD_LENGTH,
            spot: MAX_WORD_EVENTS,
        };
        assert_eq!(sale.step(event), Err(expected));
    }
    assert_eq!((sale.events(), sale.is_idle()), (MAX_WORD_EVENTS, true));
    // Another net takes its place all the same: it gains a token with each event.
    sale.replace([1, 0, 1, 0, 0, 1, 0, 0, 0])?;
    assert_eq!(sale.tokens(), [MAX_WORD_EVENTS as u64]);
    assert_eq!(sale.word(), [0; MAX_WORD_EVENTS]);
    Ok(())
}

/// A sale that was started on this net, and played these events.
fn played(bundle: &[u8], word: &[u8]) -> Sale {
    let mut sale = Sale::start(bundle).expect("a sound head");
    for &event in word {
        assert_eq!(sale.step(event.into()), Ok(Screened::Permitted));
    }
    sale
}

/// A replacement succeeds exactly when the other net permits the events so far. The sale is
/// then the one that was started on that net and played all its events there; a sale whose
/// replacement is refused is as it was.
#[test]
fn replaced_sales() {
    let mut run = Run::start("sale_wrapper::replaced_sales");
    for _ in 0..run.cases(150) {
        let (first, word) = any_net(&mut run.rng);
        let others = [(); 3].map(|()| another_net(&mut run.rng, &first, &word).bytes());
        let nets = [vec![first.bytes()], others.to_vec()].concat();
        let mut sale = Sale::start(nets[0].as_slice()).expect("a sound head");
        for event in word.into_iter().chain([0; 20]).take(40) {
            let before = sale.clone();
            let net = &nets[run.rng.below(nets.len())];
            let screened = hovmekhar::screen(net, sale.word()).expect("sound events");
            let replaced = sale.replace(net.as_slice());
            if let Screened::Stopped { position, .. } = screened {
                let (number, spot) = (Refusal::RUN_STOPPED, position);
                assert_eq!(replaced, Err(Refusal { number, spot }), "{run}");
                assert_eq!(sale, before, "{run}");
                run.note("refused");
            } else {
                assert_eq!(replaced, Ok(()), "{run}");
                assert_eq!(sale, played(net, before.word()), "{run}");
                assert_eq!(sale.initial(), played(net, &[]).tokens(), "{run}");
                assert_eq!(sale.is_idle(), sale.tokens() == sale.initial(), "{run}");
                let is_shorter = sale.tokens().len() < before.tokens().len();
                run.note(if is_shorter {
                    "fewer places"
                } else {
                    "replaced"
                });
            }
            let longer = [sale.word(), &[event]].concat();
            let expected = hovmekhar::screen(sale.bundle(), &longer);
            assert_eq!(sale.step(event.into()), expected, "{run}");
        }
        run.count(0);
    }
    run.finish_with_classes(
        &[],
        &[("replaced", 1_000), ("fewer places", 300), ("refused", 500)],
    );
}

/// The terminal is idle on the new net when that has its initial tokens, and not when the old
/// net had them.
#[test]
fn idle_on_the_new_net() -> Result<(), Refusal> {
    let mut sale = Sale::start(SAMPLE_A)?;
    assert_eq!(sale.step(0)?, Screened::Permitted);
    // Event 0 puts a token into a place without one.
    sale.replace(ONE_FOLLOWS)?;
    assert_eq!((sale.initial(), sale.tokens()), (&[0][..], &[1][..]));
    assert!(!sale.is_idle());
    assert_eq!(sale.step(1)?, Screened::Permitted);
    assert!(sale.is_idle());
    sale.replace(SAMPLE_A)?;
    assert_eq!((sale.initial(), sale.tokens()), (&[1, 2][..], &[0, 1][..]));
    assert!(!sale.is_idle());
    // A net without places is always idle.
    sale.replace([2, 0, 0])?;
    assert!(sale.is_idle() && sale.tokens().is_empty());
    assert_eq!(sale.word(), [0, 1]);
    Ok(())
}

/// Whatever is wrong with the other bundle, the sale is as it was, and goes on.
#[test]
fn refused_replacements() -> Result<(), Refusal> {
    let mut sale = Sale::start(SAMPLE_A)?;
    assert_eq!(sale.step(0)?, Screened::Permitted);
    let before = sale.clone();
    for (bundle, number, spot) in [
        (vec![], Refusal::BUNDLE_LENGTH, 0),
        (vec![0; 64_513], Refusal::BUNDLE_LENGTH, 0),
        (SAMPLE_A[..28].to_vec(), Refusal::BUNDLE_END, 27),
        (vec![13, 0, 0], Refusal::VALUE, 0),
        // The bundle's own refusals come first.
        (vec![3, 0, 1, 0], Refusal::BUNDLE_END, 3),
        (SAMPLE_NEW.to_vec(), Refusal::REPLACED_EVENTS, 0),
        // Event 0 takes a token of none.
        (
            vec![2, 0, 1, 0, 0, 0, 0, 0, 0, 1, 0, 0, 0],
            Refusal::RUN_STOPPED,
            0,
        ),
    ] {
        assert_eq!(sale.replace(bundle), Err(Refusal { number, spot }));
        assert_eq!(sale, before);
    }
    assert_eq!(sale.step(1)?, Screened::Permitted);
    assert_eq!((sale.word(), sale.tokens()), (&[0, 1][..], &[0, 1][..]));
    Ok(())
}

/// A sale is a value: a copy is played apart, and equal events on equal nets make equal sales,
/// whatever was stopped or refused between.
#[test]
fn sales_are_values() -> Result<(), Refusal> {
    let mut sale = played(&SAMPLE_A, &[0, 0]);
    let mut copy = sale.clone();
    let stopped = Screened::Stopped {
        position: 2,
        place: 1,
        shortfall: 1,
    };
    assert_eq!(copy.step(0)?, stopped);
    assert!(copy.step(2).is_err() && copy.replace([3, 0, 0]).is_err());
    assert_eq!(copy, sale);
    assert_eq!(copy.step(1)?, Screened::Permitted);
    assert_ne!(copy, sale);
    assert_eq!(sale.step(1)?, Screened::Permitted);
    assert_eq!(copy, sale);
    Ok(())
}
