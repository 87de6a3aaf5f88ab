//! RULES, Bytes of a table and The table of a set, and refusals 8 to 12.

use std::collections::HashMap;
use std::sync::{Arc, Mutex};

use super::limits::{width, Limit};
use super::{big_endian, refuse, sets, Refusal, HIT, MISS};

/// A state: "two for the state that follows on a miss, two for the one that follows on a hit", None where a miss isn't
/// allowed.
#[derive(Clone, Copy, PartialEq, Eq, Debug)]
pub struct State {
    pub miss: Option<usize>,
    pub hit: usize,
}

/// How many entries of the work area a build needs, and clears.
pub const WORK_ENTRIES: usize = 131_072;
/// How many states a table has at the most.
pub const MOST_STATES: usize = 32_768;
/// "7+4n bytes" for the most states.
pub const LONGEST_TABLE: usize = 7 + 4 * MOST_STATES;

/// "as reading a set; then 8; then 9 with 7+4n", and else the table itself.
pub fn build(set: &[u8], work_entries: usize, table_room: usize) -> Result<Vec<u8>, Refusal> {
    let limits = sets::read(set)?;
    // "the work area has less than 131,072 entries of 16 bits"
    if work_entries < WORK_ENTRIES {
        return refuse(8, 0);
    }
    // "the buffer is shorter than what must be written", with "how many bytes are needed"
    let table = bytes(&states(&limits));
    if table_room < table.len() {
        return refuse(9, table.len());
    }
    Ok(table)
}

/// "the length field, 3+4n", "the version, 1", "n, how many states there are", "4 for each state, from state 0 on".
pub fn bytes(states: &[State]) -> Vec<u8> {
    let n = states.len();
    let mut bytes = (3 + 4 * n as u32).to_be_bytes().to_vec();
    bytes.push(1);
    bytes.extend((n as u16).to_be_bytes());
    for state in states {
        // "FF FF as the state that follows on a miss says that no miss is allowed there."
        bytes.extend((state.miss.unwrap_or(0xFFFF) as u16).to_be_bytes());
        bytes.extend((state.hit as u16).to_be_bytes());
    }
    bytes
}

/// "It walks the patterns that the set keeps, and no others." "No machine that walks exactly these has fewer states."
///
/// What may follow a kept pattern is settled by its last outcomes, as many as share a window with the next job:
/// its history. Histories are one state when the same continuations are kept after them.
pub fn states(set: &[Limit]) -> Vec<State> {
    let histories = Histories::new(set);
    let in_order = histories.in_order();
    let classes = histories.classes(&in_order);
    // "Each state has a first pattern, in the order of patterns, that leads to it, and the states are numbered in the
    // order of their first patterns."
    let mut first_history = Vec::new();
    let mut number_of = HashMap::new();
    for &history in &in_order {
        number_of.entry(classes[history]).or_insert_with(|| {
            first_history.push(history);
            first_history.len() - 1
        });
    }
    let number = |history: usize| number_of[&classes[history]];
    first_history
        .iter()
        .map(|&history| State {
            miss: histories.may_miss[history].then(|| number(histories.push(history, MISS))),
            hit: number(histories.push(history, HIT)),
        })
        .collect()
}

struct Histories {
    length: usize,
    may_miss: Vec<bool>,
}

impl Histories {
    fn new(set: &[Limit]) -> Histories {
        let length = set.iter().map(|&limit| width(limit)).max().expect("a set has a limit") - 1;
        let mut may_miss = vec![true; 1 << length];
        for &limit in set {
            let page = misses_allowed(limit);
            // Of the history a limit sees as many outcomes as its own window reaches back over.
            may_miss.iter_mut().enumerate().for_each(|(history, may)| *may &= page[history % page.len()]);
        }
        Histories { length, may_miss }
    }

    /// "With each new outcome the bits move up by one, the outcome becomes the lowest bit, and a mask drops what is
    /// older than the history is long."
    fn push(&self, history: usize, outcome: u8) -> usize {
        (history * 2 + usize::from(outcome)) % (1 << self.length)
    }

    /// The histories of the patterns that are kept, in the order of the first pattern that leads to each, with hits
    /// before it: a pattern is kept where every miss in it was allowed when it came.
    fn in_order(&self) -> Vec<usize> {
        let start = (1 << self.length) - 1;
        let mut reached = vec![start];
        let mut seen = vec![false; 1 << self.length];
        seen[start] = true;
        let mut place = 0;
        while let Some(&history) = reached.get(place) {
            let miss = self.may_miss[history].then(|| self.push(history, MISS));
            for next in miss.into_iter().chain([self.push(history, HIT)]) {
                if !seen[next] {
                    seen[next] = true;
                    reached.push(next);
                }
            }
            place += 1;
        }
        reached
    }

    /// Splits the histories by what can follow, one outcome further each round, until a round splits nothing.
    fn classes(&self, kept: &[usize]) -> Vec<usize> {
        let mut classes = vec![0; self.may_miss.len()];
        let mut count = 1;
        loop {
            // Those that a hit leads to one class, and of these those that a miss leads to one class, or that allow
            // none, are one class of the next round.
            let mut by_hit = vec![Vec::new(); count];
            kept.iter().for_each(|&history| by_hit[classes[self.push(history, HIT)]].push(history));
            let mut next = vec![0; classes.len()];
            let mut found = 0;
            let mut by_miss = vec![(usize::MAX, 0); count + 1];
            for (on_hit, group) in by_hit.iter().enumerate() {
                for &history in group {
                    let may = self.may_miss[history];
                    let on_miss = if may { classes[self.push(history, MISS)] } else { count };
                    if by_miss[on_miss].0 != on_hit {
                        by_miss[on_miss] = (on_hit, found);
                        found += 1;
                    }
                    next[history] = by_miss[on_miss].1;
                }
            }
            if found == count {
                return next;
            }
            (classes, count) = (next, found);
        }
    }
}

/// For each history, as many outcomes as share a window of the limit with the next job, whether that job may miss: all
/// windows with it in them hold, with hits after it. Worked out once for each limit.
fn misses_allowed(limit: Limit) -> Arc<Vec<bool>> {
    static PAGES: Mutex<Option<HashMap<Limit, Arc<Vec<bool>>>>> = Mutex::new(None);
    let mut pages = PAGES.lock().expect("no test has failed here");
    let page = pages.get_or_insert_default().entry(limit);
    page.or_insert_with(|| Arc::new((0..1 << (width(limit) - 1)).map(|history| may_miss(limit, history)).collect()))
        .clone()
}

/// The windows are binary numbers here, as histories are: `limits::holds` would take too long for windows of 16 jobs.
fn may_miss(limit: Limit, history: usize) -> bool {
    let (width, x) = (width(limit), usize::from(limit.x));
    let hits = |jobs: usize| (1 << jobs) - 1;
    let around = (2 * history) << (width - 1) | hits(width - 1);
    (0..width).all(|later| {
        let window = around >> later & hits(width);
        match limit.kind {
            0 => window.count_ones() as usize >= x,
            1 => (0..=width - x).any(|place| window >> place & hits(x) == hits(x)),
            2 => width - window.count_ones() as usize <= x,
            _ => window != 0,
        }
    })
}

/// "10, 11, 12: n and the length field, then the entries of all states", and else "n".
pub fn check(table: &[u8]) -> Result<usize, Refusal> {
    let n = counts(table)?;
    for state in 0..n {
        entry(table, n, state)?;
    }
    Ok(n)
}

/// 10, 11 and, of 12, "n and the length field".
pub fn counts(table: &[u8]) -> Result<usize, Refusal> {
    // "the table has under 7 bytes, or its length field isn't how many bytes follow it"
    if table.len() < 7 || big_endian(&table[0..4]) != table.len() - 4 {
        return refuse(10, 0);
    }
    // "the version of the table isn't 1"
    if table[4] != 1 {
        return refuse(11, 0);
    }
    // "n is 0 or more than 32,768; or the length field isn't 3+4n"
    let n = big_endian(&table[5..7]);
    if n == 0 || n > MOST_STATES || big_endian(&table[0..4]) != 3 + 4 * n {
        return refuse(12, 0);
    }
    Ok(n)
}

/// "a next state isn't below n, FF FF on a miss apart; or the state of a guard isn't below n"
pub fn entry(table: &[u8], n: usize, state: usize) -> Result<State, Refusal> {
    if state >= n {
        return refuse(12, 0);
    }
    let pair = &table[7 + 4 * state..][..4];
    let (miss, hit) = (big_endian(&pair[0..2]), big_endian(&pair[2..4]));
    if (miss >= n && miss != 0xFFFF) || hit >= n {
        return refuse(12, 0);
    }
    Ok(State { miss: (miss != 0xFFFF).then_some(miss), hit })
}
