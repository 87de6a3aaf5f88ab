//! The record in which an answer of the reference has to arrive.
//!
//! "a refused reading fills it with a set of count 0 and zeros, a refused comparison with a pattern of length 0, and a
//! refused start or reading back with a guard with nothing told"; what an answer doesn't use is zero too, but for the
//! answer of a refused ask or of a reader's refused call, which is 3.

use crate::floe;
use crate::reference::compare::{Between, RefusedSet};
use crate::reference::guard::{Answer, Guard, FRESH};
use crate::reference::limits::Limit;
use crate::reference::night_log::Read;
use crate::reference::verdict::Lost;
use crate::reference::Refusal;

fn numbers(refusal: Refusal) -> (u64, u64) {
    (u64::from(refusal.number), refusal.at as u64)
}

pub fn set_read(answer: Result<Vec<Limit>, Refusal>) -> floe::SetRead {
    let mut read = floe::SetRead::default();
    match answer {
        Ok(limits) => {
            read.set.count = limits.len() as u64;
            for (place, limit) in read.set.limits.iter_mut().zip(limits) {
                *place = floe::Limit { kind: limit.kind, x: limit.x, k: limit.k };
            }
        }
        Err(refusal) => (read.refused, read.at) = numbers(refusal),
    }
    read
}

pub fn written(answer: &Result<Vec<u8>, Refusal>) -> floe::Written {
    match answer {
        Ok(bytes) => floe::Written { length: bytes.len() as u64, ..Default::default() },
        Err(refusal) => floe::Written { refused: numbers(*refusal).0, at: numbers(*refusal).1, length: 0 },
    }
}

pub fn verdict(answer: Result<Option<Lost>, Refusal>) -> floe::Verdict {
    let mut verdict = floe::Verdict::default();
    match answer {
        Ok(None) => verdict.kept = 1,
        Ok(Some(Lost { job, limit, first })) => {
            (verdict.job, verdict.limit, verdict.first) = (job as u64, limit as u64, first)
        }
        Err(refusal) => (verdict.refused, verdict.at) = numbers(refusal),
    }
    verdict
}

/// "a refusal keeps the place (0 on opening)"
pub fn log_opened(answer: Result<(), Refusal>) -> floe::LogOpened {
    let floe::Done { refused, at } = done(answer);
    floe::LogOpened { refused, at, place: 0 }
}

pub fn log_read(read: Read) -> floe::LogRead {
    let floe::Done { refused, at } = done(read.answer.map(drop));
    let answer = match read.answer {
        Ok(Some(outcome)) => u64::from(outcome),
        Ok(None) => 2,
        Err(_) => 3,
    };
    floe::LogRead { refused, at, answer, place: read.place }
}

pub fn comparison(answer: Result<Between, RefusedSet>) -> floe::Comparison {
    let mut comparison = floe::Comparison::default();
    match answer {
        Ok(None) => comparison.covers = 1,
        Ok(Some(pattern)) => {
            comparison.length = pattern.len() as u64;
            comparison.pattern[..pattern.len()].copy_from_slice(&pattern);
        }
        Err(refused) => {
            comparison.which = u64::from(refused.which);
            (comparison.refused, comparison.at) = numbers(refused.refusal);
        }
    }
    comparison
}

pub fn built(answer: Result<Vec<u8>, Refusal>) -> floe::Built {
    match answer {
        Ok(table) => floe::Built { length: table.len() as u64, ..Default::default() },
        Err(refusal) => floe::Built { refused: numbers(refusal).0, at: numbers(refusal).1, length: 0 },
    }
}

pub fn checked(answer: Result<usize, Refusal>) -> floe::Checked {
    match answer {
        Ok(n) => floe::Checked { states: n as u64, ..Default::default() },
        Err(refusal) => floe::Checked { refused: numbers(refusal).0, at: numbers(refusal).1, states: 0 },
    }
}

pub fn guard(guard: Guard) -> floe::Guard {
    let Guard { state, lost, outcomes, count } = guard;
    floe::Guard { state, lost, outcomes, count }
}

pub fn done(answer: Result<(), Refusal>) -> floe::Done {
    let (refused, at) = answer.map_or_else(numbers, |()| (0, 0));
    floe::Done { refused, at }
}

pub fn started(answer: Result<Guard, Refusal>) -> floe::Started {
    let floe::Done { refused, at } = done(answer.map(drop));
    floe::Started { refused, at, guard: guard(answer.unwrap_or(FRESH)) }
}

/// "A refused ask or tell gives back the guard that came": `before`.
pub fn told(before: Guard, answer: Result<Guard, Refusal>) -> floe::Told {
    let floe::Done { refused, at } = done(answer.map(drop));
    floe::Told { refused, at, guard: guard(answer.unwrap_or(before)) }
}

pub fn row_asked(answer: Result<Answer, Refusal>) -> floe::RowAsked {
    let floe::Done { refused, at } = done(answer.map(drop));
    floe::RowAsked { refused, at, answer: answer.map_or(3, |answer| answer as u64) }
}

pub fn asked(before: Guard, answer: Result<Answer, Refusal>) -> floe::Asked {
    let floe::RowAsked { refused, at, answer } = row_asked(answer);
    floe::Asked { refused, at, answer, guard: guard(before) }
}
