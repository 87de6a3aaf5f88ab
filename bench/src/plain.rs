//! The straightforward programs: what a Rust programmer writes from the rules without further thought about speed, but
//! without waste either. None of them keeps a running count or a history: every window is looked at afresh.

pub mod builder;
pub mod carry;
pub mod compare;
pub mod guard;
pub mod log;
pub mod sets;
pub mod verdict;

use sets::Limit;

pub fn width(limit: &Limit) -> usize {
    if limit.kind == 3 {
        usize::from(limit.x)
    } else {
        usize::from(limit.k)
    }
}

pub fn holds(limit: &Limit, window: &[u8]) -> bool {
    let x = usize::from(limit.x);
    match limit.kind {
        0 => hits(window) >= x,
        1 => x == 0 || has_run(window, x),
        2 => window.len() - hits(window) <= x,
        _ => window.contains(&1),
    }
}

fn hits(window: &[u8]) -> usize {
    window.iter().filter(|&&outcome| outcome == 1).count()
}

fn has_run(window: &[u8], x: usize) -> bool {
    let mut run = 0;
    window.iter().any(|&outcome| {
        run = if outcome == 1 { run + 1 } else { 0 };
        run == x
    })
}
