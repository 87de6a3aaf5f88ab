//! Two plain verdicts. Both put hits around the pattern and look at windows of bytes.

use super::sets::{read, Limit, Refusal, LONGEST_WINDOW};
use super::{holds, width};

/// The job at which the pattern is lost, the limit that doesn't keep it and the first job of that limit's window.
pub type Lost = Option<(usize, usize, i64)>;

/// Each window of each limit once, over the whole pattern. Only a pattern that isn't kept is gone through again,
/// job by job, for the job, the limit and the window.
pub fn each_window_once(set: &[u8], pattern: &[u8]) -> Result<Lost, Refusal> {
    let (set, around) = prepare(set, pattern)?;
    Ok(windows_once(set.limits(), &around))
}

/// The same of outcomes that were tested, with [`HITS`] before and after them.
pub fn windows_once(limits: &[Limit], around: &[u8]) -> Lost {
    let kept = |limit: &Limit| around.windows(width(limit)).all(|window| holds(limit, window));
    if limits.iter().all(kept) {
        return None;
    }
    job_by_job(limits, &around[HITS.len()..around.len() - HITS.len()])
}

/// After each job all windows that contain it, with hits after the job.
pub fn windows_over_each_job(set: &[u8], pattern: &[u8]) -> Result<Lost, Refusal> {
    let (set, _) = prepare(set, pattern)?;
    Ok(job_by_job(set.limits(), pattern))
}

fn prepare(set: &[u8], pattern: &[u8]) -> Result<(super::sets::Set, Vec<u8>), Refusal> {
    let set = read(set)?;
    if i64::try_from(pattern.len()).is_err() {
        return Err((26, 0));
    }
    if let Some(place) = pattern.iter().position(|&outcome| outcome > 1) {
        return Err((13, place));
    }
    Ok((set, [&HITS, pattern, &HITS].concat()))
}

pub const HITS: [u8; LONGEST_WINDOW] = [1; LONGEST_WINDOW];

fn job_by_job(limits: &[Limit], pattern: &[u8]) -> Lost {
    // The newest outcomes, as many as the longest window has, with hits after them: a window that contains the newest
    // starts among them.
    let mut around = [1; 2 * LONGEST_WINDOW];
    for (place, &outcome) in pattern.iter().enumerate() {
        around.copy_within(1..LONGEST_WINDOW, 0);
        around[LONGEST_WINDOW - 1] = outcome;
        for (number, limit) in limits.iter().enumerate() {
            let width = width(limit);
            let mut windows = around[LONGEST_WINDOW - width..LONGEST_WINDOW - 1 + width].windows(width);
            if let Some(later) = windows.position(|window| !holds(limit, window)) {
                // The first of these windows ends with this job, and each one begins a job later.
                let job = place + 1;
                return Some((job, number, (job + later) as i64 - width as i64 + 1));
            }
        }
    }
    None
}
