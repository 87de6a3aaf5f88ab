use core::fmt;

use crate::refused::accepted;
use crate::{raw, Refused};

/// What [`judge`] says of a pattern, and [`judge_log`](crate::judge_log) of the pattern in a log.
#[must_use]
#[derive(Clone, Copy, PartialEq, Eq, Hash, Debug)]
pub enum Verdict {
    /// With endless hits before and after the pattern, every window of every limit holds.
    Kept,
    /// It isn't kept.
    Lost {
        /// The length of its shortest beginning that isn't kept: the job, from 1, at which it is lost.
        job: usize,
        /// The lowest number, from 0, of a limit that doesn't keep that beginning.
        limit: usize,
        /// Where to look: with endless hits before and after that beginning, the earliest window of that limit that
        /// fails begins with this job. The job at which the pattern is lost lies in this window, so `job` less `first`
        /// is below [`LONGEST_WINDOW`](crate::LONGEST_WINDOW). Jobs 0, -1, -2 and so on, down to -14, are hits that
        /// count as standing before the pattern.
        first: i64,
    },
}

impl Verdict {
    pub(crate) fn of(verdict: raw::Verdict) -> Result<Verdict, Refused> {
        let raw::Verdict { refused, at, kept, job, limit, first } = verdict;
        accepted(refused, at)?;
        Ok(match kept {
            1 => Verdict::Kept,
            _ => Verdict::Lost { job: job as usize, limit: limit as usize, first },
        })
    }
}

/// As `kept`, and `lost at job 4 by limit 0, in the window from job 3`.
impl fmt::Display for Verdict {
    fn fmt(&self, f: &mut fmt::Formatter<'_>) -> fmt::Result {
        match self {
            Verdict::Kept => f.write_str("kept"),
            Verdict::Lost { job, limit, first } => {
                write!(f, "lost at job {job} by limit {limit}, in the window from job {first}")
            }
        }
    }
}

/// Judges a pattern of outcomes, oldest first, under the set in these bytes.
///
/// Refuses by 1 to 7 and 21 for the set, then by 26, which no slice is long enough for, then by 13 for the pattern, even
/// if it is lost before the outcome that is none.
///
/// ```
/// use floelinnet::{judge, Refused, Verdict};
///
/// let any_hit_1_of_2 = [0, 0, 0, 5, 1, 1, 0, 1, 2];
/// assert_eq!(judge(&any_hit_1_of_2, &[1, 0, 1, 0])?, Verdict::Kept);
/// assert_eq!(judge(&any_hit_1_of_2, &[1, 1, 0, 0, 1])?, Verdict::Lost { job: 4, limit: 0, first: 3 });
/// assert_eq!(judge(&any_hit_1_of_2, &[0, 0, 2]), Err(Refused::Outcome { place: 2 }));
///
/// // Jobs -1 and 0 are hits before the pattern, and with its three misses they are a window of five.
/// let any_miss_2_of_5 = [0, 0, 0, 5, 1, 1, 2, 2, 5];
/// let lost = judge(&any_miss_2_of_5, &[0, 0, 0, 1])?;
/// assert_eq!(lost, Verdict::Lost { job: 3, limit: 0, first: -1 });
/// assert_eq!(lost.to_string(), "lost at job 3 by limit 0, in the window from job -1");
/// # Ok::<(), Refused>(())
/// ```
pub fn judge(set: &[u8], pattern: &[u8]) -> Result<Verdict, Refused> {
    Verdict::of(raw::judge(set, pattern))
}
