//! Faults of a bundle up to its last place, in the order in which they are named.

use crate::bundle_faults::{refusal_of_cut, write_value};
use crate::bundles::{Bundle, Field, Layout, Place};
use crate::files::MAX_BUNDLE_SIZE;
use crate::rng::Rng;
use crate::screening::net;
use reference::Refusal;

/// What can be wrong with a bundle for a call that reads it up to its last place, in the order
/// in which it is refused.
#[derive(Clone, Copy, Debug, PartialEq, Eq, PartialOrd, Ord)]
pub enum HeadFault {
    /// 4, with no byte.
    NoByte,
    /// 4, with too many.
    Bytes,
    /// 7, in the first byte.
    First,
    /// 8.
    Events,
    /// 7, in a mark or an event of a word.
    Word,
    /// 7, in the place count.
    Places,
    /// 6, before or in the last place.
    End,
}

/// A bundle to be spoilt, with five words of 204 events over two or more, and three places.
pub fn to_be_spoilt(n: usize, is_new: bool, places: [Place; 3]) -> Bundle {
    let words = vec![[vec![0; 200], vec![1; 4]].concat(); 5];
    Bundle {
        marks: is_new.then(|| vec![true; 5]),
        words,
        ..net(n, places.to_vec())
    }
}

impl HeadFault {
    /// All of them.
    pub const ALL: [Self; 7] = [
        Self::NoByte,
        Self::Bytes,
        Self::First,
        Self::Events,
        Self::Word,
        Self::Places,
        Self::End,
    ];

    /// Spoils the bytes of a bundle of [`to_be_spoilt`] so, and returns how it is refused,
    /// where nothing before it is wrong.
    pub fn spoil(self, rng: &mut Rng, layout: &Layout, bundle: &mut Vec<u8>) -> Refusal {
        let refused = |number, spot| Refusal { number, spot };
        let n = usize::from(layout.bytes[0] % 128);
        let (kind, which, value, number) = match self {
            Self::NoByte => {
                bundle.clear();
                return refused(4, 0);
            }
            Self::Bytes => {
                bundle.resize(MAX_BUNDLE_SIZE + 1, 0);
                return refused(4, 0);
            }
            Self::End => {
                let length = layout.places_end - rng.within(1..=3 * 10);
                bundle.truncate(length);
                return refusal_of_cut(layout, length);
            }
            Self::First => {
                let value = rng.choose(&[0, 13, 127, 128, 141, 255]);
                (Field::EventCount, 0, value, 7)
            }
            // The last word then has 209 events: 1 more than are left.
            Self::Events => (Field::Length, 4, 209, 8),
            Self::Word if layout.all(Field::Mark).len() == 5 && rng.below(2) == 0 => {
                (Field::Mark, 4, 2, 7)
            }
            Self::Word => (Field::Event, 4 * 204 + 3, n, 7),
            Self::Places => (Field::PlaceCount, 0, 65, 7),
        };
        let range = layout.all(kind)[which].clone();
        write_value(bundle, &range, value);
        refused(number, range.start)
    }
}
