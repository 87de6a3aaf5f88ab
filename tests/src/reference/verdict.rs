//! RULES, Lost: the verdict on a pattern.

use super::limits::{holds, keeps, width, Limit};
use super::{refuse, sets, Refusal, HIT};

#[derive(Clone, Copy, PartialEq, Eq, Debug)]
pub struct Lost {
    pub job: usize,
    pub limit: usize,
    /// Where to look.
    pub first: i64,
}

/// "as reading a set; then 26; then 13 over all outcomes of the pattern, those after the job at which it is lost too"
pub fn judge(set: &[u8], pattern: &[u8]) -> Result<Option<Lost>, Refusal> {
    let limits = sets::read(set)?;
    // "a pattern that is to be judged has more than 9,223,372,036,854,775,807 outcomes"
    if pattern.len() > 9_223_372_036_854_775_807 {
        return refuse(26, 0);
    }
    outcomes_only(pattern)?;
    Ok(lost(&limits, pattern))
}

/// "an outcome is more than 1", with "its number among the outcomes, from 0".
pub fn outcomes_only(pattern: &[u8]) -> Result<(), Refusal> {
    match pattern.iter().position(|&byte| byte != 0 && byte != 1) {
        Some(place) => refuse(13, place),
        None => Ok(()),
    }
}

/// "Of its beginnings that aren't kept the shortest has j jobs, so j counts from 1. Beside j stands a limit: among
/// those that don't keep this beginning, the one with the lowest number, from 0."
pub fn lost(limits: &[Limit], pattern: &[u8]) -> Option<Lost> {
    for job in 1..=pattern.len() {
        for (number, &limit) in limits.iter().enumerate() {
            let beginning = &pattern[..job];
            if !keeps(limit, beginning) {
                return Some(Lost { job, limit: number, first: first(limit, beginning) });
            }
        }
    }
    None
}

/// "Let hits without end come before this beginning and after it. Of the windows of that limit that then fail, the
/// earliest is said by its first job. The pattern begins with job 1; the hits before it are jobs 0, −1, −2 and so on".
/// Every window that begins before the first one tried here is all hits, like that one.
pub fn first(limit: Limit, beginning: &[u8]) -> i64 {
    let outcome = |job: i64| match job {
        1.. => beginning.get(job as usize - 1).copied().unwrap_or(HIT),
        _ => HIT,
    };
    let window = |first: i64| -> Vec<u8> { (first..first + width(limit) as i64).map(outcome).collect() };
    let fails = |&first: &i64| !holds(limit, &window(first));
    (-30..=beginning.len() as i64).find(fails).expect("a limit that doesn't keep it has a window that fails")
}
