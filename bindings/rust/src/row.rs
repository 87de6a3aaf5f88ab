//! A row of guards, one a job, on one table. Starting or telling one job changes its guard only, and a refused call
//! changes none.
//!
//! The row is the caller's own slice; a new one holds guards with nothing told, [`Guard::default`]. Every call refuses
//! first by 14: the job's number isn't below the row's count of guards, or the row has more than
//! [`MOST_GUARDS`](crate::MOST_GUARDS). Then it tests what the call on a single guard tests.
//!
//! ```
//! use floelinnet::{row, Answer, Guard, Refused, MISS};
//!
//! let table = [0, 0, 0, 11, 1, 0, 2, 0, 1, 0, 0, 0xFF, 0xFF, 0, 0];
//! let mut jobs = [Guard::default(); 3];
//! for job in 0..jobs.len() {
//!     row::start(&mut jobs, job, &table)?;
//! }
//! row::tell(&mut jobs, 1, &table, MISS)?;
//! assert_eq!(row::ask(&jobs, 1, &table)?, Answer::Panic);
//! assert_eq!(row::ask(&jobs, 2, &table)?, Answer::Normal);
//! assert_eq!(row::ask(&jobs, 3, &table), Err(Refused::Job));
//! # Ok::<(), Refused>(())
//! ```

use crate::raw::{self, Guard};
use crate::refused::accepted;
use crate::{Answer, Refused};

/// Starts the guard of a job anew, as [`Guard::start`] does. A refused start leaves the job's old guard.
pub fn start(row: &mut [Guard], job: usize, table: &[u8]) -> Result<(), Refused> {
    let done = raw::row_start(row, job, table);
    accepted(done.refused, done.at)
}

/// Asks, before a job, whether a miss is still allowed, as [`Guard::ask`] does.
pub fn ask(row: &[Guard], job: usize, table: &[u8]) -> Result<Answer, Refused> {
    let asked = raw::row_ask(row, job, table);
    accepted(asked.refused, asked.at)?;
    Ok(Answer::of(asked.answer))
}

/// Tells the guard of a job its outcome, as [`Guard::tell`] does.
pub fn tell(row: &mut [Guard], job: usize, table: &[u8], outcome: u8) -> Result<(), Refused> {
    let done = raw::row_tell(row, job, table, outcome);
    accepted(done.refused, done.at)
}
