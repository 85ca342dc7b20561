//! Opens and seals files, keeps log tables, judges, prunes and converts bundles, screens
//! words, looks for one that leads to an event, and plays words event by event, with the
//! proved static library.
//!
//! A *sealed file* is 1 to 128 blocks of 512 bytes, each with its number, its
//! used count, 504 bytes of contents and two checksums. The used contents of
//! its blocks, joined, are the *bundle*: 1 to 64,512 bytes. [`seal`] makes the
//! file from the bundle, [`open`] checks the file and gives the bundle back.
//!
//! A *log* is a list of words of events. Its *log table* has a row for each
//! distinct count vector of a beginning of a word, with the events that follow
//! there. [`Summary::fresh`] starts a log, [`Summary::take`] takes a further word.
//!
//! A bundle holds a log, a net of places, and a certificate for each *wrong
//! continuation*: each event that does not follow the counts of a row in the log.
//! In the new edition a word can be marked as *completed*: it leaves each place with its
//! initial tokens. [`judge`] accepts a bundle when the net permits the log, obeys its
//! completed words, and every certificate holds; [`judge_file_vec`] opens a file, judges
//! its bundle and hands both back. [`prune`] writes an accepted bundle without the places
//! that no certificate names, [`to_new`] and [`to_old`] write one in the other edition.
//! [`screen`] replays a word on the net of a bundle, and says where it is stopped and how
//! many tokens were missing; [`screen_joined`] does so with the places of two bundles.
//! [`reach`] gives a shortest word after which the net permits a wanted event. A [`Sale`]
//! gives the answers of screening event by event, and keeps the tokens of the places and the
//! events; between two of them another net can take the place of its own. [`start`],
//! [`step`] and [`replace`] do so with tokens and events that are lent.
//!
//! A call that cannot give a result returns a [`Refusal`] and writes nothing; only
//! [`judge`] clears the table. [`prune`], [`to_new`] and [`to_old`] leave the table as
//! [`judge`] does.
//!
//! ```
//! use hovmekhar::Refusal;
//!
//! let mut file = hovmekhar::seal_vec(b"some bytes")?;
//! assert_eq!(file.len(), hovmekhar::BLOCK_SIZE);
//! assert_eq!(hovmekhar::open_vec(&file)?, b"some bytes");
//!
//! file[4] ^= 1;
//! let refusal = hovmekhar::open_vec(&file).unwrap_err();
//! assert_eq!(refusal.number, Refusal::BLOCK_SUMS);
//! assert_eq!(
//!     refusal.to_string(),
//!     "refusal 2: the sums of block 0 are wrong"
//! );
//! # Ok::<(), Refusal>(())
//! ```

#![deny(missing_docs)]
#![deny(unsafe_code)]
#![deny(unsafe_op_in_unsafe_fn)]

#[cfg(not(target_arch = "x86_64"))]
compile_error!("the static library is built for x86-64");

mod blocks;
mod editions;
mod engine;
// Public for tests that look at every number of an answer; not part of the API.
#[allow(unsafe_code)]
#[doc(hidden)]
pub mod ffi;
mod judging;
mod kind;
mod logs;
mod pruning;
mod reaching;
mod refusal;
mod sale;
mod screening;

pub use blocks::{open, open_vec, seal, seal_vec};
pub use blocks::{BLOCK_SIZE, CONTENTS_SIZE, MAX_BLOCKS, MAX_BUNDLE_SIZE, MAX_FILE_SIZE};
pub use editions::{to_new, to_new_vec, to_old, to_old_vec};
pub use engine::{replace, start, step, Step, MAX_TOKENS};
pub use judging::{judge, judge_file_vec, judge_vec, Judged, Tally};
pub use judging::{MAX_PAIRS, MAX_PLACES, MAX_TERMS, NEW_EDITION};
pub use kind::Kind;
pub use logs::{Summary, MAX_EVENTS, MAX_LOG_EVENTS, MAX_ROWS, ROW_SIZE, TABLE_SIZE};
pub use pruning::{prune, prune_vec};
pub use reaching::{reach, Reached, MAX_REACH_EVENTS};
pub use refusal::Refusal;
pub use sale::Sale;
pub use screening::{screen, screen_joined, Screened, MAX_WORD_EVENTS};
