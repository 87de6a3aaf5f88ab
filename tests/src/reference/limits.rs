//! RULES, Limits, Kept and Panic: the four kinds of limit, and which patterns are kept.

use super::{HIT, MISS};

#[derive(Clone, Copy, PartialEq, Eq, Hash, Debug)]
pub struct Limit {
    pub kind: u8,
    pub x: u8,
    pub k: u8,
}

/// "The longest window has 16 jobs".
pub const LONGEST_WINDOW: usize = 16;

/// The longest window that the printing program takes, and the longest of a set in a record of version 1.
pub const OLD_LONGEST_WINDOW: usize = 12;

/// The column "window".
pub fn width(limit: Limit) -> usize {
    match limit.kind {
        3 => usize::from(limit.x),
        _ => usize::from(limit.k),
    }
}

/// The column "holds in a window when".
pub fn holds(limit: Limit, window: &[u8]) -> bool {
    let x = usize::from(limit.x);
    match limit.kind {
        // "x or more of its jobs are hits"
        0 => count(window, HIT) >= x,
        // "somewhere in it x hits follow each other without a miss"
        1 => (0..=window.len() - x).any(|i| count(&window[i..i + x], HIT) == x),
        // "x or fewer of its jobs are misses"
        2 => count(window, MISS) <= x,
        // "it isn't made of misses alone"
        3 => count(window, MISS) != window.len(),
        kind => panic!("no limit has kind {kind}"),
    }
}

fn count(window: &[u8], outcome: u8) -> usize {
    window.iter().filter(|&&o| o == outcome).count()
}

/// "Let hits without end come before the pattern and after it. A limit keeps the pattern when it holds in every window
/// of this two-way endless sequence". Beyond the hits put here every window is all hits, like the first one.
pub fn keeps(limit: Limit, pattern: &[u8]) -> bool {
    let hits = vec![HIT; width(limit)];
    let around = [&hits, pattern, &hits].concat();
    around.windows(width(limit)).all(|window| holds(limit, window))
}

/// "A set keeps the patterns that all of its limits keep, and no others."
pub fn set_keeps(set: &[Limit], pattern: &[u8]) -> bool {
    set.iter().all(|&limit| keeps(limit, pattern))
}

/// "A pattern is in panic when it is kept but would no longer be with a miss after it."
pub fn panics(set: &[Limit], pattern: &[u8]) -> bool {
    set_keeps(set, pattern) && !set_keeps(set, &[pattern, &[MISS]].concat())
}

/// "A set limits nothing when it keeps every pattern." Where it loses one, a window of some limit fails, and with more
/// misses it fails too: as many misses as the longest window has jobs are lost as well.
pub fn limits_nothing(set: &[Limit]) -> bool {
    set_keeps(set, &[MISS; LONGEST_WINDOW])
}

/// Every limit that is a set of its own: with the "allowed numbers", and not one that limits nothing.
pub fn accepted_limits() -> Vec<Limit> {
    limits_within(LONGEST_WINDOW)
}

/// Those whose windows have at most so many jobs.
pub fn limits_within(longest: usize) -> Vec<Limit> {
    allowed_within(longest).into_iter().filter(|&limit| !limits_nothing(&[limit])).collect()
}

/// Every limit with the "allowed numbers", those that limit nothing too: beside others a set may have them.
pub fn allowed_limits() -> Vec<Limit> {
    allowed_within(LONGEST_WINDOW)
}

fn allowed_within(longest: usize) -> Vec<Limit> {
    let longest = longest as u8;
    let mut limits = Vec::new();
    for kind in 0..3 {
        for k in 1..=longest {
            limits.extend((0..=k).map(|x| Limit { kind, x, k }));
        }
    }
    limits.extend((1..=longest).map(|x| Limit { kind: 3, x, k: 0 }));
    limits
}
