//! Compares the proved library with the reference on generated calls.
//!
//! The tests are in `tests/`; this crate holds what they share:
//!
//! - [`rng`]: the random generator.
//! - [`files`]: bundles and sound files.
//! - [`faults`]: files that have to be refused.
//! - [`logs`]: logs and log tables.
//! - [`bundles`]: bundles and their fields.
//! - [`nets`]: nets and certificates for logs, with the method of [`simplex`].
//! - [`limits`], [`sales`]: bundles up to the limits, in the old edition and the new.
//! - [`bundle_faults`], [`ordered_faults`], [`head_faults`]: bundles that have to be refused,
//!   for one fault or for the first of several, by the judge or up to their last place.
//! - [`fields`], [`places`]: reading a bundle, and its places, by the definitions.
//! - [`judging`], [`pruning`], [`editions`], [`screening`], [`reaching`], [`engine`]: judging,
//!   pruning, conversion, screening, the search for a word and the carried engine, by the
//!   definitions.
//! - [`rewriting`]: the calls that judge a bundle and write it anew.
//! - [`comparing`], [`log_pairs`]: two accepted files compared, and pairs to compare.
//! - [`long_words`]: long words, and places that have no token to spare on them.
//! - [`samples`]: the files in `samples/`.
//! - [`vectors`]: cases with their answers, from a file.
//! - [`program`]: the program `judge`, run as a person or a script runs it.
//! - [`c_programs`]: programs in C, compiled and linked with the library.
//! - [`guarded`]: lent buffers with guards on both sides.
//! - [`run`]: makes each call on both sides, compares, and counts.
//!
//! Three environment variables steer the tests:
//!
//! - `HOVMEKHAR_SEED`: the seed. Without it each test takes a fresh one from the
//!   clock. A test prints its seed, and every failed comparison names it.
//! - `HOVMEKHAR_CASES`: a multiplier for the number of cases, for long runs.
//! - `HOVMEKHAR_BIN_DIR`: the directory of `judge`, an absolute path.
//!   Without it that is `crates/judge/out` beside the Rust workspace.

#![forbid(unsafe_code)]
#![deny(missing_docs)]

pub mod bundle_faults;
pub mod bundles;
pub mod c_programs;
pub mod comparing;
pub mod editions;
pub mod engine;
pub mod faults;
pub mod fields;
pub mod files;
pub mod guarded;
pub mod head_faults;
pub mod judging;
pub mod limits;
pub mod log_pairs;
pub mod logs;
pub mod long_words;
pub mod nets;
pub mod ordered_faults;
pub mod places;
pub mod program;
pub mod pruning;
pub mod reaching;
pub mod rewriting;
pub mod rng;
pub mod run;
pub mod sales;
pub mod samples;
pub mod screening;
pub mod simplex;
pub mod vectors;
