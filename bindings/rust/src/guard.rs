use core::{fmt, slice};

use crate::raw::{self, Guard};
use crate::refused::accepted;
use crate::{no_such, row, Refused};

/// What a guard says before a job.
#[must_use]
#[derive(Clone, Copy, PartialEq, Eq, Hash, Debug)]
pub enum Answer {
    /// A miss is still allowed.
    Normal,
    /// The outcomes told so far are kept, and with one more miss they aren't.
    Panic,
    /// A miss was told in panic. It stays so until the caller starts a new guard.
    Lost,
}

impl Answer {
    pub(crate) fn of(number: u64) -> Answer {
        match number {
            0 => Answer::Normal,
            1 => Answer::Panic,
            2 => Answer::Lost,
            _ => no_such("answer", number),
        }
    }
}

impl fmt::Display for Answer {
    fn fmt(&self, f: &mut fmt::Formatter<'_>) -> fmt::Result {
        f.pad(match self {
            Answer::Normal => "normal",
            Answer::Panic => "panic",
            Answer::Lost => "lost",
        })
    }
}

impl Guard {
    /// Starts a guard on a table, all of which is checked. It takes the table's own bytes, not a longer buffer that holds
    /// them.
    ///
    /// Refuses by 10 to 12. The guard that the library gives beside a refusal, one with nothing told, isn't handed on;
    /// [`Guard::default`] is such a guard.
    ///
    /// ```
    /// use floelinnet::{Answer, Guard, Refused, HIT, MISS};
    ///
    /// // AnyHit(1,2): after a miss a hit.
    /// let table = [0, 0, 0, 11, 1, 0, 2, 0, 1, 0, 0, 0xFF, 0xFF, 0, 0];
    /// let mut guard = Guard::start(&table)?;
    /// assert_eq!(guard.ask(&table)?, Answer::Normal);
    /// guard = guard.tell(&table, MISS)?;
    /// assert_eq!(guard.ask(&table)?, Answer::Panic);
    /// guard = guard.tell(&table, HIT)?;
    /// assert_eq!(guard.ask(&table)?, Answer::Normal);
    /// # Ok::<(), Refused>(())
    /// ```
    #[must_use = "the guard is what comes back"]
    pub fn start(table: &[u8]) -> Result<Guard, Refused> {
        let started = raw::guard_start(table);
        accepted(started.refused, started.at)?;
        Ok(started.guard)
    }

    /// Asks, before a job, whether a miss is still allowed.
    ///
    /// Refuses by 10 to 12, whether or not the guard is lost. Of the table only its head and the entry of the guard's
    /// state are tested.
    pub fn ask(&self, table: &[u8]) -> Result<Answer, Refused> {
        // It is asked where it lies, as a row of one. By value it would be copied in and out again.
        row::ask(slice::from_ref(self), 0, table)
    }

    /// Tells the guard, after a job, its outcome, [`HIT`](crate::HIT) or [`MISS`](crate::MISS), and gives the guard to
    /// go on with.
    ///
    /// Its count is one more, and it holds the outcome as its newest, without its oldest. A miss told in panic makes it
    /// lost instead: it then keeps state and outcomes, goes on counting, and no outcome brings it back. On a table that
    /// [`build`](crate::build) made of a set, [`HELD`](crate::HELD) hits in a row bring a guard that isn't lost back to
    /// state 0 with hits alone held; its count goes on.
    ///
    /// Refuses by 10 to 12 as [`ask`](Guard::ask) does, then by 13, then by 17 where the count is [`u64::MAX`]. No
    /// outcome was told then, and the caller goes on with the guard that it has:
    ///
    /// ```
    /// # use floelinnet::{Guard, Refused};
    /// # let table = [0, 0, 0, 11, 1, 0, 2, 0, 1, 0, 0, 0xFF, 0xFF, 0, 0];
    /// let guard = Guard::start(&table)?;
    /// assert_eq!(guard.tell(&table, 2), Err(Refused::Outcome { place: 0 }));
    /// assert_eq!(guard, Guard::start(&table)?);
    /// # Ok::<(), Refused>(())
    /// ```
    #[must_use = "the guard to go on with is the one that comes back: `guard = guard.tell(..)?`"]
    pub fn tell(self, table: &[u8], outcome: u8) -> Result<Guard, Refused> {
        let told = raw::guard_tell(self, table, outcome);
        accepted(told.refused, told.at)?;
        Ok(told.guard)
    }
}
