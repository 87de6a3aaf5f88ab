//! The archive as it is: its records, and for each of its functions a safe call that takes slices and gives the flat
//! record back.
//!
//! Names, fields and their order are those of `include/floelinnet.h`. This is the one place where Rust declares them,
//! and the only one with unsafe code.

use crate::{HELD, MOST_LIMITS};

/// A limit: its kind, and its numbers as the kind takes them.
#[repr(C)]
#[derive(Clone, Copy, Default, PartialEq, Eq, Debug)]
pub struct Limit {
    /// 0 AnyHit, 1 RowHit, 2 AnyMiss, 3 RowMiss.
    pub kind: u8,
    /// The bound; for RowMiss the window's length too.
    pub x: u8,
    /// The window's length; 0 for RowMiss.
    pub k: u8,
}

/// A set of limits.
#[repr(C)]
#[derive(Clone, Copy, Default, PartialEq, Eq, Debug)]
pub struct Set {
    /// How many limits it has.
    pub count: u64,
    /// The limits. Places from `count` on aren't looked at, and hold zeros where the set was read.
    pub limits: [Limit; MOST_LIMITS],
}

/// Where one job stands on its table: start it, ask it before each job, tell it after each.
///
/// It belongs to the table that it was started on. No call can see which one that was: on another table its state is
/// taken for the one of that number there, and refused only where there is none. To copy a guard is to copy the job's
/// standing. It holds its last outcomes, so that [`write_record`](Guard::write_record) can store it while it is
/// switched off.
///
/// The default is a guard with nothing told: not lost, in state 0, hits alone held, count 0. It is what a new row
/// holds; nobody has checked a table for it. All bytes zero are another guard, which holds misses.
///
/// The guard to go on with is the one that comes back:
///
/// ```
/// # use floelinnet::{Guard, Refused, MISS};
/// # let table = [0, 0, 0, 11, 1, 0, 2, 0, 1, 0, 0, 0xFF, 0xFF, 0, 0];
/// let mut guard = Guard::start(&table)?;
/// guard = guard.tell(&table, MISS)?;
/// # assert_eq!(guard.state, 1);
/// # Ok::<(), Refused>(())
/// ```
///
/// To drop it is to tell nothing. The compiler warns of that, and refuses it where such a warning is denied:
///
/// ```compile_fail
/// # #![deny(unused_must_use)]
/// # use floelinnet::{Guard, Refused, MISS};
/// # let table = [0, 0, 0, 11, 1, 0, 2, 0, 1, 0, 0, 0xFF, 0xFF, 0, 0];
/// let guard = Guard::start(&table)?;
/// guard.tell(&table, MISS)?;
/// # Ok::<(), Refused>(())
/// ```
#[must_use = "the guard to go on with is the one that comes back: `guard = guard.tell(..)?`"]
#[repr(C)]
#[derive(Clone, Copy, PartialEq, Eq, Hash, Debug)]
pub struct Guard {
    /// The number of its state in the table. Of a lost guard, the one before the miss in panic.
    pub state: u16,
    /// Whether a miss was told in panic.
    pub lost: bool,
    /// The last outcomes, oldest first, true for a hit, with hits in the places of those that it wasn't told yet. Of a
    /// lost guard, those before the miss in panic.
    pub outcomes: [bool; HELD],
    /// How many outcomes it was told. A lost guard counts on, the miss in panic too.
    pub count: u64,
}

/// A guard with nothing told, by `floe_guard_new`.
impl Default for Guard {
    fn default() -> Guard {
        guard_new()
    }
}

/// The answers, which all begin with the same two fields.
macro_rules! answers {
    ($($(#[$says:meta])* $name:ident { $($(#[$holds:meta])* $field:ident: $kind:ty),* $(,)? })*) => {$(
        $(#[$says])*
        #[must_use]
        #[repr(C)]
        #[derive(Clone, Copy, Default, PartialEq, Eq, Debug)]
        pub struct $name {
            /// 0, or the number of the refusal.
            pub refused: u64,
            /// What is returned beside that number, else 0.
            pub at: u64,
            $($(#[$holds])* pub $field: $kind,)*
        }
    )*};
}

answers! {
    /// What [`read_set`] answers.
    SetRead {
        /// The set; of count 0 on a refusal.
        set: Set,
    }
    /// What [`write_set`], [`carry_write`] and [`log_write`] answer.
    Written {
        /// How many bytes were written; 0 on a refusal.
        length: u64,
    }
    /// What [`judge`] and [`log_judge`] answer.
    Verdict {
        /// 1 where the pattern is kept; 0 where it is lost, and on a refusal.
        kept: u64,
        /// The job, from 1, at which the pattern is lost; 0 where it isn't.
        job: u64,
        /// The lowest-numbered limit, from 0, that doesn't keep the pattern up to that job; 0 where it isn't lost.
        limit: u64,
        /// The first job of that limit's earliest window that fails, with hits around the pattern up to that job. It may
        /// lie before job 1. 0 where the pattern isn't lost.
        first: i64,
    }
    /// What [`compare`] answers.
    Comparison {
        /// The set that is refused, 1 or 2; 0 where none is.
        which: u64,
        /// 1 where the first set covers the second; 0 where it doesn't, and on a refusal.
        covers: u64,
        /// The length of the pattern between them.
        length: u64,
        /// That pattern; places from `length` on are 0.
        pattern: [u8; 16],
    }
    /// What [`build`] answers.
    Built {
        /// The table's length in bytes; 0 on a refusal.
        length: u64,
    }
    /// What [`check_table`] answers.
    Checked {
        /// How many states the table has; 0 on a refusal.
        states: u64,
    }
    /// What [`guard_start`] and [`carry_read`] answer.
    Started {
        /// A guard with nothing told, or the one that was read back; on a refusal one with nothing told.
        guard: Guard,
    }
    /// What [`guard_ask`] answers.
    Asked {
        /// 0 normal, 1 panic, 2 lost, 3 refused.
        answer: u64,
        /// The guard as it was handed in.
        guard: Guard,
    }
    /// What [`guard_tell`] answers.
    Told {
        /// The guard to go on with; on a refusal the one handed in.
        guard: Guard,
    }
    /// What [`row_start`] and [`row_tell`] answer.
    Done {}
    /// What [`row_ask`] answers.
    RowAsked {
        /// 0 normal, 1 panic, 2 lost, 3 refused.
        answer: u64,
    }
    /// What [`log_open`] answers.
    LogOpened {
        /// Where reading begins: 0, on a refusal too.
        place: u64,
    }
    /// What [`log_next`] answers.
    LogRead {
        /// 0 a miss, 1 a hit, 2 end, 3 refused.
        answer: u64,
        /// The place to go on with; at the end and on a refusal the one handed in.
        place: u64,
    }
}

extern "C" {
    fn floe_read_set(set: *const u8, set_len: usize) -> SetRead;
    fn floe_write_set(set: Set, bytes: *mut u8, bytes_len: usize) -> Written;
    fn floe_judge(set: *const u8, set_len: usize, pattern: *const u8, pattern_len: usize) -> Verdict;
    fn floe_compare(first: *const u8, first_len: usize, second: *const u8, second_len: usize) -> Comparison;
    fn floe_build(
        set: *const u8,
        set_len: usize,
        work: *mut u16,
        work_len: usize,
        table: *mut u8,
        table_len: usize,
    ) -> Built;
    fn floe_check_table(table: *const u8, table_len: usize) -> Checked;
    fn floe_guard_new() -> Guard;
    fn floe_guard_start(table: *const u8, table_len: usize) -> Started;
    fn floe_guard_ask(guard: Guard, table: *const u8, table_len: usize) -> Asked;
    fn floe_guard_tell(guard: Guard, table: *const u8, table_len: usize, outcome: u8) -> Told;
    fn floe_row_start(row: *mut Guard, count: usize, job: usize, table: *const u8, table_len: usize) -> Done;
    fn floe_row_ask(row: *const Guard, count: usize, job: usize, table: *const u8, table_len: usize) -> RowAsked;
    fn floe_row_tell(
        row: *mut Guard,
        count: usize,
        job: usize,
        table: *const u8,
        table_len: usize,
        outcome: u8,
    ) -> Done;
    fn floe_carry_write(guard: Guard, set: *const u8, set_len: usize, record: *mut u8, record_len: usize) -> Written;
    fn floe_carry_read(record: *const u8, record_len: usize, table: *const u8, table_len: usize) -> Started;
    fn floe_log_write(pattern: *const u8, pattern_len: usize, log: *mut u8, log_len: usize) -> Written;
    fn floe_log_open(log: *const u8, log_len: usize) -> LogOpened;
    fn floe_log_next(place: u64, log: *const u8, log_len: usize) -> LogRead;
    fn floe_log_judge(set: *const u8, set_len: usize, log: *const u8, log_len: usize) -> Verdict;
}

// SAFETY, for every call below: a slice's pointer isn't null, is aligned and is valid for the slice's length, an empty
// one's too; and what a `&mut` slice lends overlaps nothing else. The header asks for no more.

/// `floe_read_set`.
pub fn read_set(set: &[u8]) -> SetRead {
    unsafe { floe_read_set(set.as_ptr(), set.len()) }
}

/// `floe_write_set`.
pub fn write_set(set: Set, bytes: &mut [u8]) -> Written {
    unsafe { floe_write_set(set, bytes.as_mut_ptr(), bytes.len()) }
}

/// `floe_judge`.
pub fn judge(set: &[u8], pattern: &[u8]) -> Verdict {
    unsafe { floe_judge(set.as_ptr(), set.len(), pattern.as_ptr(), pattern.len()) }
}

/// `floe_compare`.
pub fn compare(first: &[u8], second: &[u8]) -> Comparison {
    unsafe { floe_compare(first.as_ptr(), first.len(), second.as_ptr(), second.len()) }
}

/// `floe_build`.
pub fn build(set: &[u8], work: &mut [u16], table: &mut [u8]) -> Built {
    unsafe { floe_build(set.as_ptr(), set.len(), work.as_mut_ptr(), work.len(), table.as_mut_ptr(), table.len()) }
}

/// `floe_check_table`.
pub fn check_table(table: &[u8]) -> Checked {
    unsafe { floe_check_table(table.as_ptr(), table.len()) }
}

/// `floe_guard_new`.
pub fn guard_new() -> Guard {
    unsafe { floe_guard_new() }
}

/// `floe_guard_start`.
pub fn guard_start(table: &[u8]) -> Started {
    unsafe { floe_guard_start(table.as_ptr(), table.len()) }
}

/// `floe_guard_ask`.
pub fn guard_ask(guard: Guard, table: &[u8]) -> Asked {
    unsafe { floe_guard_ask(guard, table.as_ptr(), table.len()) }
}

/// `floe_guard_tell`.
pub fn guard_tell(guard: Guard, table: &[u8], outcome: u8) -> Told {
    unsafe { floe_guard_tell(guard, table.as_ptr(), table.len(), outcome) }
}

/// `floe_row_start`.
pub fn row_start(row: &mut [Guard], job: usize, table: &[u8]) -> Done {
    unsafe { floe_row_start(row.as_mut_ptr(), row.len(), job, table.as_ptr(), table.len()) }
}

/// `floe_row_ask`.
pub fn row_ask(row: &[Guard], job: usize, table: &[u8]) -> RowAsked {
    unsafe { floe_row_ask(row.as_ptr(), row.len(), job, table.as_ptr(), table.len()) }
}

/// `floe_row_tell`.
pub fn row_tell(row: &mut [Guard], job: usize, table: &[u8], outcome: u8) -> Done {
    unsafe { floe_row_tell(row.as_mut_ptr(), row.len(), job, table.as_ptr(), table.len(), outcome) }
}

/// `floe_carry_write`.
pub fn carry_write(guard: Guard, set: &[u8], record: &mut [u8]) -> Written {
    unsafe { floe_carry_write(guard, set.as_ptr(), set.len(), record.as_mut_ptr(), record.len()) }
}

/// `floe_carry_read`.
pub fn carry_read(record: &[u8], table: &[u8]) -> Started {
    unsafe { floe_carry_read(record.as_ptr(), record.len(), table.as_ptr(), table.len()) }
}

/// `floe_log_write`.
pub fn log_write(pattern: &[u8], log: &mut [u8]) -> Written {
    unsafe { floe_log_write(pattern.as_ptr(), pattern.len(), log.as_mut_ptr(), log.len()) }
}

/// `floe_log_open`.
pub fn log_open(log: &[u8]) -> LogOpened {
    unsafe { floe_log_open(log.as_ptr(), log.len()) }
}

/// `floe_log_next`.
pub fn log_next(place: u64, log: &[u8]) -> LogRead {
    unsafe { floe_log_next(place, log.as_ptr(), log.len()) }
}

/// `floe_log_judge`.
pub fn log_judge(set: &[u8], log: &[u8]) -> Verdict {
    unsafe { floe_log_judge(set.as_ptr(), set.len(), log.as_ptr(), log.len()) }
}
