//! Why a call gave no result.

use crate::ffi::Answer;
use crate::Kind;
use std::error::Error;
use std::fmt;

/// Why a call gave no result: a number of the refusal table, and a spot.
///
/// What the spot means depends on the number; it is said at each constant.
///
/// ```
/// use hovmekhar::Refusal;
///
/// let refusal = hovmekhar::seal_vec(&[]).unwrap_err();
/// assert_eq!(refusal, Refusal { number: Refusal::BUNDLE_LENGTH, spot: 0 });
/// ```
#[derive(Clone, Copy, Debug, PartialEq, Eq, Hash)]
pub struct Refusal {
    /// The number, 1 to 23.
    pub number: u8,
    /// Where or how much, according to the number.
    pub spot: usize,
}

impl Refusal {
    /// The file's length is 0, no multiple of 512, or above 65,536. Spot: 0.
    pub const FILE_LENGTH: u8 = Kind::FileLength.number();
    /// The sums of the lowest faulty block are wrong; its number, its used count and
    /// its unused bytes are right. Spot: that block.
    pub const BLOCK_SUMS: u8 = Kind::BlockSums.number();
    /// The output is shorter than the result, or the buffer is too short for the events of
    /// a run. Spot: the length needed.
    pub const OUTPUT_SHORT: u8 = Kind::OutputShort.number();
    /// The bundle's length is 0 or above 64,512, or the result's, where a bundle is
    /// converted, is above 64,512. Spot: 0.
    pub const BUNDLE_LENGTH: u8 = Kind::BundleLength.number();
    /// The table has fewer than 3,584 numbers. Spot: 3,584. Or the tokens have fewer
    /// numbers than the bundle has places, or the new one. Spot: the place count.
    pub const NUMBERS_SHORT: u8 = Kind::NumbersShort.number();
    /// The bundle ends before or inside a field. Spot: the field's offset.
    pub const BUNDLE_END: u8 = Kind::BundleEnd.number();
    /// A value is outside its range, or names a row, event, place or word that is not
    /// there. Spot: the field's offset; in a lent word, the position.
    pub const VALUE: u8 = Kind::Value.number();
    /// The events would pass 1,024. Spot: the offset of the word's length byte;
    /// for a summary 0.
    pub const EVENTS: u8 = Kind::Events.number();
    /// The rows would pass 256. Spot: as for [`Refusal::EVENTS`].
    pub const ROWS: u8 = Kind::Rows.number();
    /// A place does not fit. Spot: the lowest such place.
    pub const PLACE_MISFIT: u8 = Kind::PlaceMisfit.number();
    /// The place that a certificate lists permits the wrong continuation.
    /// Spot: the certificate's number.
    pub const PLACE_PERMITS: u8 = Kind::PlacePermits.number();
    /// A certificate of kind 1 does not hold, the step of one of its terms is not
    /// allowed, or the word of one of its pairs is partial. Spot: the certificate's
    /// number.
    pub const WEIGHTS: u8 = Kind::Weights.number();
    /// Bytes follow the last certificate. Spot: the offset of the first.
    pub const BYTES_FOLLOW: u8 = Kind::BytesFollow.number();
    /// The screened word has more than 65,535 events, a step comes behind 65,535 or more,
    /// or a net is replaced behind more. Spot: 65,535.
    pub const WORD_LENGTH: u8 = Kind::WordLength.number();
    /// An event of the screened word, or one that is kept where a net is replaced, is not
    /// below the event count. Spot: its position. Or the event of a step is not. Spot: the
    /// events so far. Or the wanted event is not. Spot: 0.
    pub const WORD_EVENT: u8 = Kind::WordEvent.number();
    /// A summary's event count is not 1 to 12, its rows are not 1 to 256, or its
    /// events are above 1,024. Spot: 0. Or the tokens of a place are above
    /// 4,294,901,760. Spot: the lowest such place.
    pub const STATE_RANGE: u8 = Kind::StateRange.number();
    /// The number of the lowest faulty block is not its position. Spot: the position.
    pub const BLOCK_NUMBER: u8 = Kind::BlockNumber.number();
    /// The used count of the lowest faulty block is wrong, or an unused byte of it is
    /// not zero; its number is right. Spot: that block.
    pub const BLOCK_USE: u8 = Kind::BlockUse.number();
    /// The event counts of two bundles that are joined are not the same. Spot: 0.
    pub const EVENT_COUNTS: u8 = Kind::EventCounts.number();
    /// A place does not have its initial tokens again after a completed word; all
    /// places fit. Spot: the lowest such place.
    pub const PLACE_DISOBEYS: u8 = Kind::PlaceDisobeys.number();
    /// A word is completed, and so there is no such bundle in the old edition. Spot: the
    /// number of the first such word.
    pub const WORD_COMPLETED: u8 = Kind::WordCompleted.number();
    /// The event counts of a bundle and of the one that replaces it are not the same.
    /// Spot: 0.
    pub const REPLACED_EVENTS: u8 = Kind::ReplacedEvents.number();
    /// The net that replaces another stops on the events so far, so the run can go on only
    /// with the old one. Spot: the position of the event that it refuses.
    pub const RUN_STOPPED: u8 = Kind::RunStopped.number();

    /// Which refusal it is; nothing for a number that is not in the table, which no
    /// call gives.
    #[must_use]
    pub fn kind(&self) -> Option<Kind> {
        Kind::of(self.number)
    }

    /// What it says, with its spot where that tells something, and without its number.
    ///
    /// ```
    /// let refusal = hovmekhar::open_vec(&[1; 512]).unwrap_err();
    /// let sentence = refusal.sentence().to_string();
    /// assert_eq!(sentence, "the block at position 0 has another number");
    /// assert_eq!(refusal.to_string(), format!("refusal 17: {sentence}"));
    /// ```
    #[must_use]
    pub fn sentence(&self) -> impl fmt::Display {
        Sentence(*self)
    }

    /// Reads what a call of the library returned: 0 for a result, or a refusal's
    /// number, with the spot in the answer.
    pub(crate) fn check(number: u32, answer: Answer) -> Result<(), Refusal> {
        if number == 0 {
            return Ok(());
        }
        Err(Refusal {
            // The refusal table ends at 23 and `usize` has 64 bits here, so both
            // conversions keep the value.
            number: number as u8,
            spot: answer[0] as usize,
        })
    }
}

impl fmt::Display for Refusal {
    fn fmt(&self, f: &mut fmt::Formatter<'_>) -> fmt::Result {
        write!(f, "refusal {}: {}", self.number, self.sentence())
    }
}

/// What a refusal says, without its number.
struct Sentence(Refusal);

impl fmt::Display for Sentence {
    fn fmt(&self, f: &mut fmt::Formatter<'_>) -> fmt::Result {
        let Refusal { number, spot } = self.0;
        match number {
            Refusal::BLOCK_SUMS => write!(f, "the sums of block {spot} are wrong"),
            Refusal::BLOCK_NUMBER => write!(f, "the block at position {spot} has another number"),
            Refusal::BLOCK_USE => write!(
                f,
                "the used count of block {spot} is wrong, or an unused byte of it is not zero"
            ),
            Refusal::OUTPUT_SHORT => write!(f, "too few bytes are lent, {spot} are needed"),
            Refusal::NUMBERS_SHORT => {
                write!(f, "too few numbers are lent, {spot} are needed")
            }
            Refusal::BUNDLE_END => write!(
                f,
                "the bundle ends before or inside the field at offset {spot}"
            ),
            Refusal::VALUE => write!(
                f,
                "the value at {spot} is outside its range, \
                 or names a row, event, place or word that is not there"
            ),
            Refusal::EVENTS => write!(f, "the events would pass 1,024 (spot {spot})"),
            Refusal::ROWS => write!(f, "the rows would pass 256 (spot {spot})"),
            Refusal::PLACE_MISFIT => write!(f, "place {spot} does not fit the log"),
            Refusal::PLACE_PERMITS => write!(
                f,
                "the place listed by certificate {spot} permits the wrong continuation"
            ),
            Refusal::WEIGHTS => write!(
                f,
                "certificate {spot} does not hold, has a step that is not allowed, \
                 or a word that is not completed"
            ),
            Refusal::BYTES_FOLLOW => write!(
                f,
                "bytes follow the last certificate, from offset {spot} on"
            ),
            Refusal::WORD_EVENT => write!(
                f,
                "the event at position {spot} of the word, or the wanted one, \
                 is not below the event count"
            ),
            Refusal::STATE_RANGE => write!(f, "{} (spot {spot})", Kind::StateRange),
            Refusal::PLACE_DISOBEYS => write!(
                f,
                "place {spot} does not return to its initial tokens after a completed word"
            ),
            Refusal::WORD_COMPLETED => write!(
                f,
                "word {spot} is completed, and the old edition has no mark for it"
            ),
            Refusal::RUN_STOPPED => write!(
                f,
                "the net that replaces another stops at position {spot} of the events so far"
            ),
            // The others have one spot each, which tells nothing.
            _ => f.write_str(
                self.0
                    .kind()
                    .map_or("no refusal has this number", Kind::text),
            ),
        }
    }
}

impl Error for Refusal {}
