//! RULES, Covers.

use super::limits::{set_keeps, Limit, LONGEST_WINDOW};
use super::table::State;
use super::{patterns_in_order, sets, Refusal, HIT, MISS};

/// A refused comparison: "a refusal says which of them, 1 or 2".
#[derive(Clone, Copy, PartialEq, Eq, Debug)]
pub struct RefusedSet {
    pub which: u8,
    pub refusal: Refusal,
}

/// None says that the first set covers the second.
pub type Between = Option<Vec<u8>>;

/// "as reading a set, for the first set and then for the second"
pub fn compare(first: &[u8], second: &[u8]) -> Result<Between, RefusedSet> {
    let (a, b) = read_both(first, second)?;
    Ok(between(&a, &b))
}

pub fn read_both(first: &[u8], second: &[u8]) -> Result<(Vec<Limit>, Vec<Limit>), RefusedSet> {
    let a = sets::read(first).map_err(|refusal| RefusedSet { which: 1, refusal })?;
    let b = sets::read(second).map_err(|refusal| RefusedSet { which: 2, refusal })?;
    Ok((a, b))
}

/// "there are patterns between the two, kept by A and not by B, and the answer is the first of them in the order of
/// patterns. It has 1 to 16 jobs"
pub fn between(a: &[Limit], b: &[Limit]) -> Between {
    between_within(LONGEST_WINDOW, a, b)
}

/// The same of sets whose windows have at most so many jobs: "never more than the longest window".
pub fn between_within(longest: usize, a: &[Limit], b: &[Limit]) -> Between {
    patterns_in_order(longest).find(|pattern| set_keeps(a, pattern) && !set_keeps(b, pattern))
}

/// In another way, which is quicker for long windows and asks nothing of a pattern's length: the tables of both sets,
/// walked together in the order of patterns, as far as both walk. The first place where only the first allows a miss
/// ends it; a pattern that leads where an earlier one led has nothing new after it.
pub fn between_tables(a: &[State], b: &[State]) -> Between {
    // Where each pattern leads, and the place here of the one before its newest outcome.
    let mut reached = vec![(0, 0, None)];
    // For each state of the larger table the states of the other that were met with it.
    let larger = |p: usize, q: usize| if a.len() > b.len() { (p, q) } else { (q, p) };
    let mut met = vec![Vec::new(); a.len().max(b.len())];
    met[0].push(0);
    let mut place = 0;
    while let Some(&(p, q, _)) = reached.get(place) {
        let on_miss = match (a[p].miss, b[q].miss) {
            (Some(_), None) => return Some(pattern_to(&reached, place)),
            (Some(p), Some(q)) => Some((p, q, MISS)),
            (None, _) => None,
        };
        for (p, q, outcome) in on_miss.into_iter().chain([(a[p].hit, b[q].hit, HIT)]) {
            let (state, other) = larger(p, q);
            if !met[state].contains(&other) {
                met[state].push(other);
                reached.push((p, q, Some((place, outcome))));
            }
        }
        place += 1;
    }
    None
}

/// The pattern that leads to this place, and a miss.
fn pattern_to(reached: &[(usize, usize, Option<(usize, u8)>)], place: usize) -> Vec<u8> {
    let before = std::iter::successors(reached[place].2, |&(before, _)| reached[before].2);
    let mut pattern: Vec<u8> = [MISS].into_iter().chain(before.map(|(_, outcome)| outcome)).collect();
    pattern.reverse();
    pattern
}
