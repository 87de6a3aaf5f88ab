use core::fmt;

use crate::refused::accepted;
use crate::{no_such, raw, Refused, LONGEST_SET};

/// One limit: what has to hold in every window of its length, 1 to 16 jobs. [`LimitSet::new`] judges the numbers. A limit
/// that can't be broken, an AnyHit or RowHit with x 0 or an AnyMiss with x = k, is taken beside one that can.
#[derive(Clone, Copy, PartialEq, Eq, Hash, Debug)]
pub enum Limit {
    /// At least x hits in k jobs.
    AnyHit {
        /// How many hits, 0 to k.
        x: u8,
        /// Of how many jobs, 1 to 16.
        k: u8,
    },
    /// Some x hits in a row in k jobs.
    RowHit {
        /// How many hits, 0 to k.
        x: u8,
        /// Of how many jobs, 1 to 16.
        k: u8,
    },
    /// At most x misses in k jobs.
    AnyMiss {
        /// How many misses, 0 to k.
        x: u8,
        /// Of how many jobs, 1 to 16.
        k: u8,
    },
    /// x misses in a row never happen, x from 1 to 16.
    RowMiss {
        /// How many misses, 1 to 16.
        x: u8,
    },
}

impl Limit {
    fn of(limit: &raw::Limit) -> Limit {
        let raw::Limit { kind, x, k } = *limit;
        match kind {
            0 => Limit::AnyHit { x, k },
            1 => Limit::RowHit { x, k },
            2 => Limit::AnyMiss { x, k },
            3 => Limit::RowMiss { x },
            _ => no_such("kind", kind.into()),
        }
    }

    fn raw(self) -> raw::Limit {
        let (kind, x, k) = match self {
            Limit::AnyHit { x, k } => (0, x, k),
            Limit::RowHit { x, k } => (1, x, k),
            Limit::AnyMiss { x, k } => (2, x, k),
            Limit::RowMiss { x } => (3, x, 0),
        };
        raw::Limit { kind, x, k }
    }
}

/// As `AnyHit(1,2)`, and `RowMiss(2)`.
impl fmt::Display for Limit {
    fn fmt(&self, f: &mut fmt::Formatter<'_>) -> fmt::Result {
        match self {
            Limit::AnyHit { x, k } => write!(f, "AnyHit({x},{k})"),
            Limit::RowHit { x, k } => write!(f, "RowHit({x},{k})"),
            Limit::AnyMiss { x, k } => write!(f, "AnyMiss({x},{k})"),
            Limit::RowMiss { x } => write!(f, "RowMiss({x})"),
        }
    }
}

/// A set of 1 to 8 limits whose numbers are allowed and that forbid something: made of [`Limit`]s by [`LimitSet::new`], or
/// read by [`read_set`].
#[derive(Clone, Copy, PartialEq, Eq)]
pub struct LimitSet {
    set: raw::Set,
    length: usize,
    bytes: [u8; LONGEST_SET],
}

impl LimitSet {
    /// The set of these limits, in this order. It is the library that judges them, when it writes the set's bytes.
    ///
    /// Refuses by 3, by 6 and 7 with the number of the limit, and by 21.
    ///
    /// ```
    /// use floelinnet::{Limit, LimitSet, Refused};
    ///
    /// let set = LimitSet::new(&[Limit::AnyMiss { x: 2, k: 8 }, Limit::RowMiss { x: 2 }])?;
    /// assert_eq!(set.bytes(), [0, 0, 0, 8, 1, 2, 2, 2, 8, 3, 2, 0]);
    ///
    /// assert_eq!(LimitSet::new(&[]), Err(Refused::LimitCount));
    /// let window_too_long = Limit::AnyHit { x: 1, k: 17 };
    /// assert_eq!(LimitSet::new(&[window_too_long]), Err(Refused::LimitK { limit: 0 }));
    /// // At most 12 misses in 12 jobs: that is always so.
    /// assert_eq!(LimitSet::new(&[Limit::AnyMiss { x: 12, k: 12 }]), Err(Refused::LimitsNothing));
    /// # Ok::<(), Refused>(())
    /// ```
    pub fn new(limits: &[Limit]) -> Result<LimitSet, Refused> {
        let mut set = raw::Set { count: limits.len() as u64, ..Default::default() };
        for (place, limit) in set.limits.iter_mut().zip(limits) {
            *place = limit.raw();
        }
        let mut bytes = [0; LONGEST_SET];
        let written = raw::write_set(set, &mut bytes);
        accepted(written.refused, written.at)?;
        Ok(LimitSet { set, length: written.length as usize, bytes })
    }

    /// The set's bytes, as [`read_set`], [`judge`](crate::judge), [`compare`](crate::compare) and
    /// [`build`](crate::build) take them.
    pub fn bytes(&self) -> &[u8] {
        &self.bytes[..self.length]
    }

    /// The limits, in the order in which verdicts and refusals number them from 0.
    pub fn limits(&self) -> impl ExactSizeIterator<Item = Limit> + '_ {
        self.set.limits[..self.set.count as usize].iter().map(Limit::of)
    }
}

/// A list of its limits.
impl fmt::Debug for LimitSet {
    fn fmt(&self, f: &mut fmt::Formatter<'_>) -> fmt::Result {
        f.debug_list().entries(self.limits()).finish()
    }
}

/// Reads the bytes of a set: four bytes, big-endian, that count the bytes after them; the version, 1; the count of
/// limits; and for each limit its kind (0 AnyHit, 1 RowHit, 2 AnyMiss, 3 RowMiss), x and k (0 for RowMiss).
///
/// Refuses by 1 to 7 and 21.
///
/// ```
/// use floelinnet::{read_set, Limit, Refused};
///
/// let set = read_set(&[0, 0, 0, 8, 1, 2, 2, 2, 8, 3, 2, 0])?;
/// assert!(set.limits().eq([Limit::AnyMiss { x: 2, k: 8 }, Limit::RowMiss { x: 2 }]));
///
/// assert_eq!(read_set(&[0, 0, 0, 5, 1, 1, 0, 1, 17]), Err(Refused::LimitK { limit: 0 }));
/// # Ok::<(), Refused>(())
/// ```
pub fn read_set(set: &[u8]) -> Result<LimitSet, Refused> {
    let read = raw::read_set(set);
    accepted(read.refused, read.at)?;
    let mut bytes = [0; LONGEST_SET];
    bytes[..set.len()].copy_from_slice(set);
    Ok(LimitSet { set: read.set, length: set.len(), bytes })
}
