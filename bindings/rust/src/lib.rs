//! Weakly-hard limits, "so many deadlines met in any so many": a safe face of the Floelinnet archive.
//!
//! Each function is one call of the proved library and a translation of its answer: slices go in, values come out, and
//! what the library refuses is an [`Err`] with the number of the refusal. The crate tests nothing and rules nothing by
//! itself. It keeps no state, allocates nothing and needs no standard library; the archive is for x86-64 Linux.
//!
//! An outcome is a byte, [`HIT`] or [`MISS`]; a pattern is a slice of them, oldest first. Sets of limits, tables,
//! carry-over records and night logs are slices too, with the bytes that [`read_set`], [`build`],
//! [`Guard::write_record`] and [`write_log`] describe; a [`LimitSet`] is made of [`Limit`]s and has a set's bytes. Where
//! a page says "refuses by 10 to 12", these are the numbers of [`Refused`].
//!
//! | to | call |
//! |---|---|
//! | make a set of limits, or read one | [`LimitSet::new`], [`read_set`] |
//! | judge a pattern that is over, and say where it broke | [`judge`] |
//! | see whether one set demands as much as another | [`compare`] |
//! | guard jobs while they run | [`build`] once, then [`Guard`], or [`row`] for several jobs with the same limits |
//! | carry a guard through a change of the battery | [`Guard::write_record`], [`Guard::read_record`] |
//! | check a table that comes from elsewhere | [`check_table`] |
//! | store a visit's outcomes, eight to a byte, and judge it later | [`write_log`], [`judge_log`] |
//! | read what was stored, outcome by outcome | [`LogReader`] |
//!
//! ```
//! use floelinnet::{build, Answer, Guard, Limit, LimitSet, Refused, LONGEST_TABLE, MISS, WORK_ENTRIES};
//!
//! // At most 2 misses in any 8, and never 2 in a row.
//! let set = LimitSet::new(&[Limit::AnyMiss { x: 2, k: 8 }, Limit::RowMiss { x: 2 }])?;
//! let mut table = [0; LONGEST_TABLE];
//! let length = build(set.bytes(), &mut [0; WORK_ENTRIES], &mut table)?;
//! let table = &table[..length];
//!
//! let mut guard = Guard::start(table)?;
//! assert_eq!(guard.ask(table)?, Answer::Normal);
//! guard = guard.tell(table, MISS)?;
//! assert_eq!(guard.ask(table)?, Answer::Panic);
//! guard = guard.tell(table, MISS)?;
//! assert_eq!(guard.ask(table)?, Answer::Lost);
//! # Ok::<(), Refused>(())
//! ```
//!
//! The build script links `libfloelinnet.a` from the folder that `FLOELINNET_ARCHIVE_DIR` names, else from the
//! repository's `target/staticlib` or `dist/lib`.

#![no_std]
#![deny(missing_docs)]

mod carry;
mod compare;
mod guard;
mod night_log;
pub mod raw;
mod refused;
pub mod row;
mod sets;
mod table;
mod verdict;

pub use carry::{old_record_size, record_size};
pub use compare::{compare, Comparison, Pattern, RefusedSet};
pub use guard::Answer;
pub use night_log::{judge_log, log_size, write_log, LogReader};
#[doc(inline)]
pub use raw::Guard;
pub use refused::Refused;
pub use sets::{read_set, Limit, LimitSet};
pub use table::{build, check_table};
pub use verdict::{judge, Verdict};

/// The version of this crate, of the header and of the archive that they came with.
pub const VERSION: &str = env!("CARGO_PKG_VERSION");
/// A deadline that was missed.
pub const MISS: u8 = 0;
/// A deadline that was met.
pub const HIT: u8 = 1;
/// How many limits a set has at the most.
pub const MOST_LIMITS: usize = 8;
/// The length in bytes of the longest set.
pub const LONGEST_SET: usize = 30;
/// How many entries of 16 bits [`build`] needs to work.
pub const WORK_ENTRIES: usize = 131_072;
/// The length in bytes of the longest table.
pub const LONGEST_TABLE: usize = 131_079;
/// How many guards a row has at the most.
pub const MOST_GUARDS: usize = 16;
/// How many jobs the longest window has.
pub const LONGEST_WINDOW: usize = 16;
/// How many outcomes a guard holds. A window that a later outcome completes reaches back no further.
pub const HELD: usize = LONGEST_WINDOW - 1;
/// The length in bytes of the longest carry-over record.
pub const LONGEST_RECORD: usize = record_size(LONGEST_SET);

/// The Rust programs of README and of the cookbook run as this crate's examples do.
#[cfg(doctest)]
#[doc = include_str!("../../../README.md")]
#[doc = include_str!("../../../docs/COOKBOOK.md")]
struct Pages;

/// A number that the library's proofs leave no room for. Whatever was answered instead would be a rule of this crate's
/// own, so the call ends here.
#[cold]
fn no_such(what: &str, number: u64) -> ! {
    panic!("the archive is not Floelinnet's: it has no {what} {number}")
}
