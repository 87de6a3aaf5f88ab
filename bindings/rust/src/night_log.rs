use core::iter::FusedIterator;

use crate::refused::accepted;
use crate::{no_such, raw, Refused, Verdict, HIT, MISS};

/// The length in bytes of the log of so many outcomes, of which a log has at most 4,294,967,295. It is right for every
/// number, also above that.
///
/// ```
/// use floelinnet::log_size;
///
/// // An hour's readings, four a second.
/// static HOUR: [u8; log_size(60 * 60 * 4)] = [0; log_size(60 * 60 * 4)];
/// assert_eq!(HOUR.len(), 1809);
/// assert_eq!((log_size(0), log_size(1), log_size(8), log_size(9)), (9, 10, 10, 11));
/// ```
pub const fn log_size(outcomes: usize) -> usize {
    9 + outcomes.div_ceil(8)
}

/// Writes the night log of a pattern to the beginning of `out` and gives its length in bytes, which is that of
/// [`log_size`]. Bytes of `out` past it are left alone.
///
/// The bytes of a log: four, big-endian, that count the bytes after them; the version, 1; four for the count of
/// outcomes; and the outcomes, eight to a byte, the oldest in the high bit, 1 for a hit. The low bits of the last byte
/// that no outcome takes are zero. Each pattern has one log, and reading that log gives the pattern.
///
/// Refuses by 15 for more than 4,294,967,295 outcomes, then by 13 with the place of the first outcome that is none,
/// then by 9 with the length that is needed, and then writes nothing.
///
/// ```
/// use floelinnet::{log_size, write_log, Refused, HIT, MISS};
///
/// let pattern = [HIT, HIT, MISS, HIT];
/// let mut log = [0; log_size(4)];
/// let length = write_log(&pattern, &mut log)?;
/// assert_eq!(log[..length], [0, 0, 0, 6, 1, 0, 0, 0, 4, 0b1101_0000]);
///
/// assert_eq!(write_log(&pattern, &mut log[1..]), Err(Refused::Room { needed: 10 }));
/// assert_eq!(write_log(&[HIT, 2], &mut []), Err(Refused::Outcome { place: 1 }));
/// # Ok::<(), Refused>(())
/// ```
pub fn write_log(pattern: &[u8], out: &mut [u8]) -> Result<usize, Refused> {
    let written = raw::log_write(pattern, out);
    accepted(written.refused, written.at)?;
    Ok(written.length as usize)
}

/// Judges the outcomes that a night log holds, under the set in these bytes: the verdict that [`judge`](crate::judge)
/// gives on the pattern of which it is the log.
///
/// Refuses by 1 to 7 and 21 for the set, then by 15 and by 16 for the log, and never by 26: no log has so many outcomes.
///
/// ```
/// use floelinnet::{judge_log, Refused, Verdict};
///
/// let any_hit_1_of_2 = [0, 0, 0, 5, 1, 1, 0, 1, 2];
/// let log = [0, 0, 0, 6, 1, 0, 0, 0, 5, 0b1100_1000];
/// assert_eq!(judge_log(&any_hit_1_of_2, &log)?, Verdict::Lost { job: 4, limit: 0, first: 3 });
/// assert_eq!(judge_log(&any_hit_1_of_2, &log[..9]), Err(Refused::Log));
/// # Ok::<(), Refused>(())
/// ```
pub fn judge_log(set: &[u8], log: &[u8]) -> Result<Verdict, Refused> {
    Verdict::of(raw::log_judge(set, log))
}

/// Reads a night log, oldest outcome first: an iterator that holds the caller's bytes and its place in them, and whose
/// `next` is one call of the library.
///
/// Each outcome, [`HIT`] or [`MISS`], comes in a [`Result`], since each call tests the log anew, as
/// [`open`](LogReader::open) does. The bytes are lent to the reader and can't change while it lives, so no call on a
/// log that was opened is refused. Should one be all the same, because memory failed, that is an [`Err`] and never the
/// end: the place stays, and as long as the log is faulty each further call is an `Err` too. So stop at the first, as
/// `?` does and collecting into a `Result`. An adapter that drops one, such as `skip`, comes to the next, and one that
/// goes on past each, such as `flatten` or collecting a list of `Result`s, would not end.
///
/// ```
/// use floelinnet::{LogReader, Refused, HIT, MISS};
///
/// let log = [0, 0, 0, 6, 1, 0, 0, 0, 4, 0b1101_0000];
/// let mut late = 0;
/// for outcome in LogReader::open(&log)? {
///     if outcome? == MISS {
///         late += 1;
///     }
/// }
/// assert_eq!(late, 1);
///
/// let pattern: Vec<u8> = LogReader::open(&log)?.collect::<Result<_, _>>()?;
/// assert_eq!(pattern, [HIT, HIT, MISS, HIT]);
/// # Ok::<(), Refused>(())
/// ```
///
/// To change a log that is being read doesn't compile:
///
/// ```compile_fail,E0506
/// # use floelinnet::{LogReader, Refused};
/// let mut log = [0, 0, 0, 6, 1, 0, 0, 0, 4, 0b1101_0000];
/// let mut reader = LogReader::open(&log)?;
/// log[8] = 3;
/// assert!(reader.next().is_some());
/// # Ok::<(), Refused>(())
/// ```
#[must_use = "a reader hands out nothing until it is asked for the next outcome"]
#[derive(Clone, Debug)]
pub struct LogReader<'a> {
    log: &'a [u8],
    count: usize,
    place: usize,
}

impl<'a> LogReader<'a> {
    /// Opens a log at place 0. It takes the log's own bytes, not a longer buffer that holds them.
    ///
    /// Refuses by 15, then by 16.
    ///
    /// ```
    /// use floelinnet::{LogReader, Refused};
    ///
    /// let mut log = [0, 0, 0, 6, 1, 0, 0, 0, 4, 0b1101_0000];
    /// assert_eq!(LogReader::open(&log)?.len(), 4);
    /// assert_eq!(LogReader::open(&log[..9]).unwrap_err(), Refused::Log);
    /// log[9] += 1;
    /// assert_eq!(LogReader::open(&log).unwrap_err(), Refused::UnusedBits);
    /// # Ok::<(), Refused>(())
    /// ```
    pub fn open(log: &'a [u8]) -> Result<LogReader<'a>, Refused> {
        let opened = raw::log_open(log);
        accepted(opened.refused, opened.at)?;
        let count = log[5..9].iter().fold(0, |count, &byte| count << 8 | usize::from(byte));
        Ok(LogReader { log, count, place: opened.place as usize })
    }

    /// How many outcomes were handed out, and so the place, from 0, of the next.
    ///
    /// ```
    /// # use floelinnet::{LogReader, Refused, HIT};
    /// let mut reader = LogReader::open(&[0, 0, 0, 6, 1, 0, 0, 0, 1, 0b1000_0000])?;
    /// assert_eq!(reader.place(), 0);
    /// assert_eq!(reader.next(), Some(Ok(HIT)));
    /// assert_eq!(reader.place(), 1);
    /// assert_eq!(reader.next(), None);
    /// assert_eq!(reader.place(), 1);
    /// # Ok::<(), Refused>(())
    /// ```
    pub fn place(&self) -> usize {
        self.place
    }
}

impl Iterator for LogReader<'_> {
    type Item = Result<u8, Refused>;

    fn next(&mut self) -> Option<Result<u8, Refused>> {
        let raw::LogRead { refused, at, answer, place } = raw::log_next(self.place as u64, self.log);
        self.place = place as usize;
        if let Err(refused) = accepted(refused, at) {
            return Some(Err(refused));
        }
        match answer {
            0 => Some(Ok(MISS)),
            1 => Some(Ok(HIT)),
            2 => None,
            _ => no_such("answer", answer),
        }
    }

    fn size_hint(&self) -> (usize, Option<usize>) {
        let left = self.count.saturating_sub(self.place);
        (left, Some(left))
    }
}

/// `len` is how many outcomes are left.
impl ExactSizeIterator for LogReader<'_> {}

/// Past the last outcome it is the end each time.
impl FusedIterator for LogReader<'_> {}

#[cfg(test)]
mod tests {
    use super::*;

    /// No caller can make these readers: their bytes changed after they were opened.
    #[test]
    fn a_refused_call_is_never_the_end() {
        for (faulty, refused) in [
            (&[0, 0, 0, 6, 1, 0, 0, 0, 9, 0xD0], Refused::Log),
            (&[0, 0, 0, 6, 1, 0, 0, 0, 4, 0xD1], Refused::UnusedBits),
        ] {
            for place in [0, 3, 4, 5] {
                let mut reader = LogReader { log: faulty, count: 4, place };
                for _ in 0..10 {
                    assert_eq!(reader.next(), Some(Err(refused)));
                    assert_eq!(reader.place(), place);
                }
            }
        }
    }
}
