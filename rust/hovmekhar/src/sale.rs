//! A run that keeps its buffers itself.

use crate::{replace, start, step, Refusal, Screened, Step};

/// A run on the net of a bundle, with the bundle, the tokens of its places and the events so
/// far. Only [`Sale::step`] and [`Sale::replace`] change them, so the answers are those of
/// [`screen`](crate::screen) on this bundle.
///
/// ```
/// use hovmekhar::{Refusal, Sale, Screened};
///
/// // Two events, no word, and a place with one token: event 0 takes it, 1 puts it back.
/// let bundle = [2, 0, 1, 1, 0, 0, 0, 1, 0, 1, 0, 0, 0];
/// let mut sale = Sale::start(bundle)?;
/// assert_eq!(sale.step(0)?, Screened::Permitted);
/// assert_eq!((sale.word(), sale.tokens()), ([0].as_slice(), [0].as_slice()));
///
/// // A refused event moves no token, and is neither kept nor counted.
/// let stopped = Screened::Stopped { position: 1, place: 0, shortfall: 1 };
/// assert_eq!(sale.step(0)?, stopped);
/// assert_eq!(hovmekhar::screen(&bundle, &[0, 0])?, stopped);
/// assert_eq!((sale.events(), sale.is_idle()), (1, false));
///
/// assert_eq!(sale.step(1)?, Screened::Permitted);
/// assert_eq!((sale.events(), sale.is_idle()), (2, true));
///
/// let refusal = sale.step(2).unwrap_err();
/// assert_eq!(refusal, Refusal { number: Refusal::WORD_EVENT, spot: 2 });
/// # Ok::<(), Refusal>(())
/// ```
#[derive(Clone, Debug, PartialEq, Eq, Hash)]
pub struct Sale {
    bundle: Vec<u8>,
    initial: Vec<u64>,
    tokens: Vec<u64>,
    word: Vec<u8>,
}

impl Sale {
    /// Starts a run: each place has its initial tokens.
    ///
    /// # Errors
    ///
    /// As for [`start`](crate::start), without [`Refusal::NUMBERS_SHORT`].
    ///
    /// ```
    /// use hovmekhar::{Refusal, Sale};
    ///
    /// // One event and no word. The second place is cut.
    /// let refusal = Sale::start([1, 0, 2, 5, 0, 0, 0, 0, 0, 3, 0]).unwrap_err();
    /// assert_eq!(refusal, Refusal { number: Refusal::BUNDLE_END, spot: 11 });
    /// ```
    pub fn start(bundle: impl Into<Vec<u8>>) -> Result<Self, Refusal> {
        let bundle = bundle.into();
        let initial = initial_tokens(&bundle)?;
        Ok(Self {
            bundle,
            tokens: initial.clone(),
            initial,
            word: Vec::new(),
        })
    }

    /// Plays a further event: the answer of [`screen`](crate::screen) for all events so far
    /// with this one behind them. One that is stopped moves no token, and is neither kept
    /// nor counted.
    ///
    /// # Errors
    ///
    /// [`Refusal::WORD_LENGTH`] after 65,535 events, else [`Refusal::WORD_EVENT`]. The sale
    /// is then as it was.
    pub fn step(&mut self, event: usize) -> Result<Screened, Refusal> {
        let number = self.word.len();
        // Room for the event, which is given back where the event is not kept.
        self.word.push(0);
        let step = step(
            &self.bundle,
            &mut self.tokens,
            &mut self.word,
            number,
            event,
        );
        if !matches!(step, Ok(Step::Moved(_))) {
            self.word.truncate(number);
        }
        Ok(match step? {
            Step::Moved(_) => Screened::Permitted,
            Step::Stopped {
                position,
                place,
                shortfall,
            } => Screened::Stopped {
                position,
                place,
                shortfall,
            },
        })
    }

    /// Puts the net of another bundle in place of this one. The sale goes on as if all its
    /// events had been played on the new net from the start: it has that net's tokens behind
    /// them, and is idle when each place has that net's initial tokens.
    ///
    /// The bundle need not be one that [`judge`](crate::judge) accepts: judge it first. Where
    /// both bundles are accepted and have the same event count, each prefix of the old log is
    /// one of the new log, each completed word of the old one is completed in the new one,
    /// and the events so far are a prefix of the old log, it is not refused.
    ///
    /// # Errors
    ///
    /// As for [`Sale::start`], else [`Refusal::REPLACED_EVENTS`] where the event counts are
    /// not the same, else [`Refusal::RUN_STOPPED`] where the new net stops on the events so
    /// far. The sale is then as it was, and goes on with its own bundle.
    ///
    /// ```
    /// use hovmekhar::{Refusal, Sale, Screened};
    ///
    /// // Two events, no word, and a place with so many tokens: event 0 takes one, and event 1
    /// // puts it back.
    /// let [one, two] = [1, 2].map(|m| [2, 0, 1, m, 0, 0, 0, 1, 0, 1, 0, 0, 0]);
    /// let mut sale = Sale::start(two)?;
    /// for event in [0, 0] {
    ///     assert_eq!(sale.step(event)?, Screened::Permitted);
    /// }
    ///
    /// // The other net stops on the second event.
    /// let refusal = sale.replace(one).unwrap_err();
    /// assert_eq!(refusal, Refusal { number: Refusal::RUN_STOPPED, spot: 1 });
    /// assert_eq!((sale.bundle(), sale.tokens()), (two.as_slice(), [0].as_slice()));
    ///
    /// assert_eq!(sale.step(1)?, Screened::Permitted);
    /// let refusal = sale.replace([3, 0, 0]).unwrap_err();
    /// assert_eq!(refusal, Refusal { number: Refusal::REPLACED_EVENTS, spot: 0 });
    ///
    /// let three = [2, 0, 1, 3, 0, 0, 0, 1, 0, 1, 0, 0, 0];
    /// sale.replace(three)?;
    /// assert_eq!((sale.word(), sale.tokens()), ([0, 0, 1].as_slice(), [2].as_slice()));
    /// assert_eq!(sale.step(1)?, Screened::Permitted);
    /// assert!(sale.is_idle());
    /// # Ok::<(), Refusal>(())
    /// ```
    pub fn replace(&mut self, bundle: impl Into<Vec<u8>>) -> Result<(), Refusal> {
        let bundle = bundle.into();
        let initial = initial_tokens(&bundle)?;
        let mut tokens = vec![0; initial.len()];
        let number = self.word.len();
        replace(&self.bundle, &bundle, &mut tokens, &self.word, number)?;
        self.bundle = bundle;
        self.initial = initial;
        self.tokens = tokens;
        Ok(())
    }

    /// The tokens of the places, in their order.
    #[must_use]
    pub fn tokens(&self) -> &[u64] {
        &self.tokens
    }

    /// The initial tokens of the places, in their order.
    #[must_use]
    pub fn initial(&self) -> &[u64] {
        &self.initial
    }

    /// The events that were played, in order; one that was stopped or refused is none of
    /// them.
    #[must_use]
    pub fn word(&self) -> &[u8] {
        &self.word
    }

    /// How many events were played.
    #[must_use]
    pub fn events(&self) -> usize {
        self.word.len()
    }

    /// Whether each place has its initial tokens: the terminal is as before the run.
    #[must_use]
    pub fn is_idle(&self) -> bool {
        self.tokens == self.initial
    }

    /// The bundle.
    #[must_use]
    pub fn bundle(&self) -> &[u8] {
        &self.bundle
    }
}

/// The initial tokens of the places of a bundle.
fn initial_tokens(bundle: &[u8]) -> Result<Vec<u64>, Refusal> {
    // Without any number the spot is the place count, unless there is no place.
    let places = match start(bundle, &mut []) {
        Ok(_) => 0,
        Err(refusal) if refusal.number == Refusal::NUMBERS_SHORT => refusal.spot,
        Err(refusal) => return Err(refusal),
    };
    let mut tokens = vec![0; places];
    start(bundle, &mut tokens)?;
    Ok(tokens)
}
