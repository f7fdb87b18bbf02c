//! Stretches of track, each with a job number, and which of them a given stretch touches.
//!
//! A [`Pool`] keeps the stretches in words that it owns or that are lent to it. Everything it does is done by the
//! library `hindraloha`, which is proved for every input; this crate only makes it pleasant to call. It has no
//! dependencies, takes memory only for a pool that it is to own and for the rows of a query, and doesn't panic.
//!
//! ```
//! use hindraloha::{Outcome, Pool, Record, Row};
//!
//! let mut pool = Pool::new(800)?;
//! pool.insert(10..20, 7)?;
//! assert_eq!(pool.insert(10..=19, 8)?, Outcome::AlreadyThere); // the same stretch: the old number stays
//!
//! // Records say their unit, so a file in links can't be taken for one in metres.
//! pool.apply(Record::links(0..200, 9))?; // 200 links are 40,233,600 micrometres
//!
//! let rows: Vec<Row> = pool.query(15..16)?.collect();
//! assert_eq!(rows, [Row { start: 10, end: 20, value: 7 }, Row { start: 0, end: 40_233_600, value: 9 }]);
//! # Ok::<(), hindraloha::Refusal>(())
//! ```
//!
//! # Linking
//!
//! `tools/archive`, run in the repository, makes the archive that `build.rs` links; it is for x86-64. Another
//! folder than `target/staticlib` is named by `HINDRALOHA_LIB_DIR`.
//!
//! On another kind of machine only the tests of this crate can be run, with `cargo test --offline --features stand-in`:
//! then the reference model of the comparison answers in place of the library. Nothing of it is proved, and a release
//! build refuses it.

#![deny(missing_docs)]
#![warn(clippy::undocumented_unsafe_blocks)]

mod edit;
mod ffi;
mod pool;
mod record;
mod refusal;
mod rows;
mod span;
#[cfg(feature = "stand-in")]
mod stand_in;

pub use edit::Applied;
pub use pool::Pool;
pub use record::Record;
pub use refusal::{Fed, FeedStopped, Outcome, Refusal};
pub use rows::{Row, Rows};
pub use span::Span;
