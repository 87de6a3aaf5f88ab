use core::error::Error;
use core::fmt;
use core::ops::Deref;

use crate::refused::accepted;
use crate::{raw, Refused};

/// What [`compare`] says of two sets.
#[must_use]
#[derive(Clone, Copy, PartialEq, Eq, Debug)]
pub enum Comparison {
    /// Every pattern that the first set keeps, the second keeps too.
    Covers,
    /// The shortest pattern that the first set keeps and the second doesn't, of equal lengths the one with a miss at
    /// the earliest place where they differ.
    Between(Pattern),
}

/// A pattern of at most 16 outcomes, oldest first; it serves as a slice of them.
#[derive(Clone, Copy, PartialEq, Eq)]
pub struct Pattern {
    length: usize,
    outcomes: [u8; 16],
}

impl Deref for Pattern {
    type Target = [u8];

    fn deref(&self) -> &[u8] {
        &self.outcomes[..self.length]
    }
}

impl fmt::Debug for Pattern {
    fn fmt(&self, f: &mut fmt::Formatter<'_>) -> fmt::Result {
        (**self).fmt(f)
    }
}

/// A refused comparison: which of the sets is refused, and why.
#[derive(Clone, Copy, PartialEq, Eq, Hash, Debug)]
pub enum RefusedSet {
    /// The first set; the second wasn't looked at.
    First(Refused),
    /// The second set.
    Second(Refused),
}

/// Which set, then why.
impl fmt::Display for RefusedSet {
    fn fmt(&self, f: &mut fmt::Formatter<'_>) -> fmt::Result {
        match self {
            RefusedSet::First(refused) => write!(f, "first set: {refused}"),
            RefusedSet::Second(refused) => write!(f, "second set: {refused}"),
        }
    }
}

impl Error for RefusedSet {}

/// Compares two sets: does the first demand at least as much as the second?
///
/// Refuses by 1 to 7 and 21, the first set before the second.
///
/// ```
/// use floelinnet::{compare, Comparison, RefusedSet};
///
/// let any_hit_1_of_2 = [0, 0, 0, 5, 1, 1, 0, 1, 2];
/// let any_hit_5_of_10 = [0, 0, 0, 5, 1, 1, 0, 5, 10];
/// assert_eq!(compare(&any_hit_1_of_2, &any_hit_5_of_10)?, Comparison::Covers);
/// match compare(&any_hit_5_of_10, &any_hit_1_of_2)? {
///     Comparison::Between(pattern) => assert_eq!(*pattern, [0, 0]),
///     Comparison::Covers => unreachable!(),
/// }
/// # Ok::<(), RefusedSet>(())
/// ```
pub fn compare(first: &[u8], second: &[u8]) -> Result<Comparison, RefusedSet> {
    let raw::Comparison { refused, at, which, covers, length, pattern } = raw::compare(first, second);
    accepted(refused, at).map_err(if which == 1 { RefusedSet::First } else { RefusedSet::Second })?;
    Ok(match covers {
        1 => Comparison::Covers,
        _ => Comparison::Between(Pattern { length: length as usize, outcomes: pattern }),
    })
}
