//! The refusals: what each means, and what to do about it.

#[cfg(doc)]
use crate::Refusal;
use std::fmt;

/// The refusals, each with its number in the refusal table.
///
/// ```
/// use hovmekhar::Kind;
///
/// let refusal = hovmekhar::seal_vec(&[]).unwrap_err();
/// match refusal.kind() {
///     Some(Kind::BundleLength) => println!("send fewer words, places or certificates"),
///     Some(Kind::OutputShort) => println!("lend {} bytes", refusal.spot),
///     _ => println!("{refusal}"),
/// }
/// # assert_eq!(refusal.kind(), Some(Kind::BundleLength));
/// ```
#[derive(Clone, Copy, Debug, PartialEq, Eq, Hash)]
#[non_exhaustive]
#[repr(u8)]
pub enum Kind {
    /// [`Refusal::FILE_LENGTH`]
    FileLength = 1,
    /// [`Refusal::BLOCK_SUMS`]
    BlockSums = 2,
    /// [`Refusal::OUTPUT_SHORT`]
    OutputShort = 3,
    /// [`Refusal::BUNDLE_LENGTH`]
    BundleLength = 4,
    /// [`Refusal::NUMBERS_SHORT`]
    NumbersShort = 5,
    /// [`Refusal::BUNDLE_END`]
    BundleEnd = 6,
    /// [`Refusal::VALUE`]
    Value = 7,
    /// [`Refusal::EVENTS`]
    Events = 8,
    /// [`Refusal::ROWS`]
    Rows = 9,
    /// [`Refusal::PLACE_MISFIT`]
    PlaceMisfit = 10,
    /// [`Refusal::PLACE_PERMITS`]
    PlacePermits = 11,
    /// [`Refusal::WEIGHTS`]
    Weights = 12,
    /// [`Refusal::BYTES_FOLLOW`]
    BytesFollow = 13,
    /// [`Refusal::WORD_LENGTH`]
    WordLength = 14,
    /// [`Refusal::WORD_EVENT`]
    WordEvent = 15,
    /// [`Refusal::STATE_RANGE`]
    StateRange = 16,
    /// [`Refusal::BLOCK_NUMBER`]
    BlockNumber = 17,
    /// [`Refusal::BLOCK_USE`]
    BlockUse = 18,
    /// [`Refusal::EVENT_COUNTS`]
    EventCounts = 19,
    /// [`Refusal::PLACE_DISOBEYS`]
    PlaceDisobeys = 20,
    /// [`Refusal::WORD_COMPLETED`]
    WordCompleted = 21,
    /// [`Refusal::REPLACED_EVENTS`]
    ReplacedEvents = 22,
    /// [`Refusal::RUN_STOPPED`]
    RunStopped = 23,
}

impl Kind {
    /// All of them, by their numbers.
    pub const ALL: &'static [Kind] = &[
        Kind::FileLength,
        Kind::BlockSums,
        Kind::OutputShort,
        Kind::BundleLength,
        Kind::NumbersShort,
        Kind::BundleEnd,
        Kind::Value,
        Kind::Events,
        Kind::Rows,
        Kind::PlaceMisfit,
        Kind::PlacePermits,
        Kind::Weights,
        Kind::BytesFollow,
        Kind::WordLength,
        Kind::WordEvent,
        Kind::StateRange,
        Kind::BlockNumber,
        Kind::BlockUse,
        Kind::EventCounts,
        Kind::PlaceDisobeys,
        Kind::WordCompleted,
        Kind::ReplacedEvents,
        Kind::RunStopped,
    ];

    /// The refusal of a number, if one has it.
    #[must_use]
    pub fn of(number: u8) -> Option<Kind> {
        let mut all = Self::ALL.iter().copied();
        all.find(|kind| kind.number() == number)
    }

    /// Its number in the refusal table.
    #[must_use]
    pub const fn number(self) -> u8 {
        self as u8
    }

    /// What it means, whatever the spot: the text that `hov_refusal_text` gives in C.
    #[must_use]
    pub const fn text(self) -> &'static str {
        match self {
            Kind::FileLength => "the file's length is 0, no multiple of 512, or above 65,536",
            Kind::BlockSums => "a block's sums are wrong",
            Kind::OutputShort => {
                "the output is shorter than the result, or the buffer than the events of the run"
            }
            Kind::BundleLength => "the bundle's length is 0 or above 64,512, or the result's is above 64,512",
            Kind::NumbersShort => {
                "the table has fewer than 3,584 numbers, or the tokens have fewer than there are places"
            }
            Kind::BundleEnd => "the bundle ends before or inside a field",
            Kind::Value => "a value is outside its range, or names a row, event, place or word that is not there",
            Kind::Events => "the events would pass 1,024",
            Kind::Rows => "the rows would pass 256",
            Kind::PlaceMisfit => "a place does not fit the log: the net is too tight",
            Kind::PlacePermits => "a certificate of kind 0 whose place permits the step",
            Kind::Weights => {
                "a certificate of kind 1 whose weights do not hold, with a step that is not allowed, \
                 or with a word that is not completed"
            }
            Kind::BytesFollow => "bytes follow the last certificate",
            Kind::WordLength => "the events of the word would pass 65,535",
            Kind::WordEvent => "an event of the word, or the wanted one, is not below n",
            Kind::StateRange => {
                "n is not 1 to 12, the rows are not 1 to 256, the events are above 1,024, \
                 or the tokens of a place above 4,294,901,760"
            }
            Kind::BlockNumber => "a block's number is not its position",
            Kind::BlockUse => "a block's used count is wrong, or an unused byte is not zero",
            Kind::EventCounts => "the event counts of the two bundles are not the same",
            Kind::PlaceDisobeys => "a place does not return to its initial tokens after a completed word",
            Kind::WordCompleted => "a word is completed, and the old edition has no mark for it",
            Kind::ReplacedEvents => {
                "the event counts of the bundle and of the one that replaces it are not the same"
            }
            Kind::RunStopped => "the net that replaces another stops on the events so far",
        }
    }

    /// What to do about it.
    #[must_use]
    pub const fn advice(self) -> &'static str {
        match self {
            Kind::FileLength => "it was cut, or is no sealed file: have it sent again",
            Kind::BlockSums => "bytes were damaged on the way: have it sent again",
            Kind::OutputShort | Kind::NumbersShort => {
                "only from a program that lends too little: lend so much"
            }
            Kind::BundleLength => {
                "there is no bundle, or the modeller must send fewer words, places or certificates; a sound one can stay in the old edition"
            }
            Kind::BundleEnd => "the modeller's file lacks what the counts before announce",
            Kind::Value => "the modeller looks at that offset in docs/FORMAT.md",
            Kind::Events => "the log is too long: fewer or shorter words",
            Kind::Rows => "the log has too many states: fewer or shorter words",
            Kind::PlaceMisfit => "the modeller must mend or drop this place",
            Kind::PlacePermits => "the modeller must name another place, or give weights",
            Kind::Weights => "the modeller must mend the weights",
            Kind::BytesFollow => "the modeller must end the bundle there",
            Kind::WordLength => "screen a shorter word, or start anew",
            Kind::WordEvent => "the net has no such event",
            Kind::StateRange => {
                "only from a program that keeps a log or tokens: hand on what the call before left"
            }
            Kind::BlockNumber => {
                "the blocks came in the wrong order, or one is missing: have it sent again in order"
            }
            Kind::BlockUse => "it was cut short, or written by something else: have it sent again",
            Kind::EventCounts => "the nets are not of one log: join only nets over the same events",
            Kind::PlaceDisobeys => {
                "the modeller must balance or drop this place, or mark the word as partial"
            }
            Kind::WordCompleted => {
                "keep it in the new edition, or have the modeller mark the word as partial"
            }
            Kind::ReplacedEvents => {
                "the nets are not of one log: replace a net only by one over the same events"
            }
            Kind::RunStopped => "the sale goes on with the old net: replace it when the sale has ended",
        }
    }
}

impl fmt::Display for Kind {
    fn fmt(&self, f: &mut fmt::Formatter<'_>) -> fmt::Result {
        f.write_str(self.text())
    }
}
