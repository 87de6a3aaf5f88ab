//! A plain builder: all histories, Moore's rounds with a hash map, then breadth first with a queue.

use std::collections::{HashMap, VecDeque};

use super::sets::{read, Limit, Refusal};
use super::{holds, width};

#[inline(never)]
pub fn build(set: &[u8]) -> Result<Vec<u8>, Refusal> {
    let set = read(set)?;
    let limits = set.limits();
    let length = limits.iter().map(width).max().unwrap_or(1) - 1;
    let histories = 1 << length;
    let may: Vec<bool> = (0..histories).map(|history| may_miss(limits, length, history)).collect();
    let after = |history: usize, hit: usize| (history * 2 + hit) % histories;
    let mut classes = vec![0; histories];
    let mut count = 1;
    loop {
        let mut seen = HashMap::new();
        let next: Vec<usize> = (0..histories)
            .map(|h| {
                let miss = may[h].then(|| classes[after(h, 0)]);
                let fresh = seen.len();
                *seen.entry((miss, classes[after(h, 1)])).or_insert(fresh)
            })
            .collect();
        classes = next;
        if seen.len() == count {
            break;
        }
        count = seen.len();
    }
    Ok(numbered(&classes, &may, after, histories - 1))
}

/// Whether every window over one more miss holds, with hits after it.
fn may_miss(limits: &[Limit], length: usize, history: usize) -> bool {
    let mut jobs: Vec<u8> = (0..length).rev().map(|place| (history >> place & 1) as u8).collect();
    jobs.push(0);
    jobs.resize(2 * length + 1, 1);
    limits.iter().all(|limit| {
        let width = width(limit);
        (length + 1 - width..=length).all(|first| holds(limit, &jobs[first..first + width]))
    })
}

fn numbered(classes: &[usize], may: &[bool], after: impl Fn(usize, usize) -> usize, start: usize) -> Vec<u8> {
    let mut numbers = HashMap::from([(classes[start], 0u16)]);
    let mut queue = VecDeque::from([start]);
    let mut entries = Vec::new();
    while let Some(history) = queue.pop_front() {
        for hit in 0..2 {
            if hit == 0 && !may[history] {
                entries.push(0xFFFF);
                continue;
            }
            let next = after(history, hit);
            let fresh = numbers.len() as u16;
            let number = *numbers.entry(classes[next]).or_insert(fresh);
            if number == fresh {
                queue.push_back(next);
            }
            entries.push(number);
        }
    }
    let states = numbers.len();
    let mut bytes = (3 + 4 * states as u32).to_be_bytes().to_vec();
    bytes.push(1);
    bytes.extend((states as u16).to_be_bytes());
    bytes.extend(entries.into_iter().flat_map(u16::to_be_bytes));
    bytes
}
