//! RULES, The guard.

use std::array::from_fn;

use super::limits::{panics, set_keeps, Limit, LONGEST_WINDOW};
use super::table::{check, counts, entry, State};
use super::{refuse, Refusal, HIT};

/// "one job less, 15, is as far as a window that a new outcome completes reaches back"
pub const HELD: usize = LONGEST_WINDOW - 1;

/// "the number of a state; whether it is lost; the last 15 outcomes, as truth values, the oldest first; and how many
/// outcomes it was told, a number of 64 bits"
#[derive(Clone, Copy, PartialEq, Eq, Debug)]
pub struct Guard {
    pub state: u16,
    pub lost: bool,
    pub outcomes: [bool; HELD],
    pub count: u64,
}

/// "A guard with nothing told isn't lost, is in state 0, holds 15 hits and has the count 0."
pub const FRESH: Guard = Guard { state: 0, lost: false, outcomes: [true; HELD], count: 0 };

#[derive(Clone, Copy, PartialEq, Eq, Debug)]
pub enum Answer {
    Normal,
    Panic,
    Lost,
}

/// "as the table check, the whole table", and else "a guard with nothing told".
pub fn start(table: &[u8]) -> Result<Guard, Refusal> {
    check(table)?;
    Ok(FRESH)
}

/// "10, 11, 12: n and the length field, the guard's state, then the entry of that state and no other", and else
/// "normal, panic or lost". "A lost guard is tested like any other".
pub fn ask(guard: Guard, table: &[u8]) -> Result<Answer, Refusal> {
    let state = entry(table, counts(table)?, usize::from(guard.state))?;
    Ok(match (guard.lost, state.miss) {
        (true, _) => Answer::Lost,
        (false, None) => Answer::Panic,
        (false, Some(_)) => Answer::Normal,
    })
}

/// "as ask; then 13 with 0; then 17", and else "the guard after the outcome".
pub fn tell(guard: Guard, table: &[u8], outcome: u8) -> Result<Guard, Refusal> {
    let state = entry(table, counts(table)?, usize::from(guard.state))?;
    if outcome > 1 {
        return refuse(13, 0);
    }
    // "a guard that is told an outcome was told 18,446,744,073,709,551,615 already"
    if guard.count == 18_446_744_073_709_551_615 {
        return refuse(17, 0);
    }
    // "The count grows by one."
    let counted = Guard { count: guard.count + 1, ..guard };
    // "A lost guard keeps them too, whatever it is told, and goes on counting"
    if guard.lost {
        return Ok(counted);
    }
    let next = if outcome == HIT { Some(state.hit) } else { state.miss };
    Ok(match next {
        // "goes to the next state and holds the outcome as its newest, without its oldest"
        Some(next) => Guard { state: next as u16, outcomes: newest(&guard.outcomes, &[outcome]), ..counted },
        // "Told a miss in panic, it becomes lost and keeps state and outcomes as they were before that miss."
        None => Guard { lost: true, ..counted },
    })
}

/// The newest outcomes of all that are held and told.
fn newest(held: &[bool; HELD], told: &[u8]) -> [bool; HELD] {
    let all: Vec<bool> = held.iter().copied().chain(told.iter().map(|&outcome| outcome == HIT)).collect();
    from_fn(|place| all[told.len() + place])
}

/// A guard's story, in another way, with no step from guard to guard: all that it was told since its start on a set's
/// table. "the state of a guard started there is the one to which the outcomes told so far lead. It answers panic exactly
/// where these outcomes are in panic, and lost exactly where they aren't kept."
#[derive(Clone, Debug, Default)]
pub struct Story {
    told: Vec<u8>,
    /// The length of the longest beginning that the set keeps: what a lost guard had before it was lost.
    kept: usize,
}

impl Story {
    pub fn tell(&mut self, set: &[Limit], outcome: u8) {
        let lost = self.lost();
        self.told.push(outcome);
        if !lost && set_keeps(set, &self.told) {
            self.kept += 1;
        }
    }

    fn lost(&self) -> bool {
        self.kept < self.told.len()
    }

    pub fn answer(&self, set: &[Limit]) -> Answer {
        match (self.lost(), panics(set, &self.told)) {
            (true, _) => Answer::Lost,
            (false, true) => Answer::Panic,
            (false, false) => Answer::Normal,
        }
    }

    /// The guard on a table that walks the patterns that the set keeps.
    pub fn guard(&self, states: &[State]) -> Guard {
        let kept = &self.told[..self.kept];
        let state = kept.iter().fold(0, |state, &outcome| match outcome {
            HIT => states[state].hit,
            _ => states[state].miss.expect("the table walks what is kept"),
        });
        let (lost, outcomes) = (self.lost(), newest(&FRESH.outcomes, kept));
        Guard { state: state as u16, lost, outcomes, count: self.told.len() as u64 }
    }
}
