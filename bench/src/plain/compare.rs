//! A plain comparison: all patterns of at most as many jobs as the longest window has, in order, all windows of each.

use super::sets::{read, Limit, Refusal, Set, LONGEST_WINDOW};
use super::{holds, width};

const AROUND: usize = 3 * LONGEST_WINDOW;

/// The first pattern kept under the first set and not under the second.
pub fn compare(first: &[u8], second: &[u8]) -> Result<Option<Vec<u8>>, Refusal> {
    let (first, second) = (read(first)?, read(second)?);
    // As many hits as the longest window has jobs, the pattern, and hits after it.
    let mut around = [1; AROUND];
    for length in 0..=LONGEST_WINDOW {
        for number in 0..1 << length {
            for place in 0..length {
                around[LONGEST_WINDOW + place] = (number >> (length - 1 - place) & 1) as u8;
            }
            if keeps(&first, &around, length) && !keeps(&second, &around, length) {
                return Ok(Some(around[LONGEST_WINDOW..][..length].to_vec()));
            }
        }
    }
    Ok(None)
}

fn keeps(set: &Set, around: &[u8; AROUND], length: usize) -> bool {
    let kept = |limit: &Limit| {
        let width = width(limit);
        around[LONGEST_WINDOW - width..LONGEST_WINDOW + length + width]
            .windows(width)
            .all(|window| holds(limit, window))
    };
    set.limits().iter().all(kept)
}
