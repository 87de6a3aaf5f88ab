//! A lookup in a table with the tests that ask and tell make: 10, 11, the counts in 12 and the state's own entry. It
//! has a state alone; below it stands a whole guard, with what the rules name.

use super::sets::LONGEST_WINDOW;

#[inline(never)]
pub fn may_miss(table: &[u8], state: u16) -> Result<bool, u8> {
    entry(table, state).map(|(miss, _)| miss != 0xFFFF)
}

#[inline(never)]
pub fn next(table: &[u8], state: u16, outcome: u8) -> Result<u16, u8> {
    moved(table, state, outcome)
}

/// The same for one job of a row, with the test for 14 before it.
#[inline(never)]
pub fn row_may_miss(row: &[u16], job: usize, table: &[u8]) -> Result<bool, u8> {
    test_job(row, job)?;
    entry(table, row[job]).map(|(miss, _)| miss != 0xFFFF)
}

#[inline(never)]
pub fn row_next(row: &mut [u16], job: usize, table: &[u8], outcome: u8) -> Result<(), u8> {
    test_job(row, job)?;
    row[job] = moved(table, row[job], outcome)?;
    Ok(())
}

/// One less than the longest window.
pub const HELD: usize = LONGEST_WINDOW - 1;

#[derive(Clone, Copy, PartialEq, Eq, Debug)]
pub struct Guard {
    pub state: u16,
    pub lost: bool,
    pub outcomes: [bool; HELD],
    pub count: u64,
}

pub const NEW: Guard = Guard { state: 0, lost: false, outcomes: [true; HELD], count: 0 };

/// The whole table is tested: its head with the entry of state 0, and then all entries.
#[inline(never)]
pub fn start(table: &[u8]) -> Result<Guard, u8> {
    entry(table, 0)?;
    let pair = |bytes: &[u8]| u16::from_be_bytes([bytes[0], bytes[1]]);
    let states = pair(&table[5..]);
    for entry in table[7..].chunks_exact(4) {
        let (miss, hit) = (pair(entry), pair(&entry[2..]));
        if (miss >= states && miss != 0xFFFF) || hit >= states {
            return Err(12);
        }
    }
    Ok(NEW)
}

#[derive(Clone, Copy, PartialEq, Eq, Debug)]
pub enum Answer {
    Normal,
    Panic,
    Lost,
}

/// The guard goes in and comes back beside the answer, as the rules have it.
#[inline(never)]
pub fn ask(guard: Guard, table: &[u8]) -> Result<(Answer, Guard), u8> {
    let (miss, _) = entry(table, guard.state)?;
    let answer = match (guard.lost, miss) {
        (true, _) => Answer::Lost,
        (false, 0xFFFF) => Answer::Panic,
        (false, _) => Answer::Normal,
    };
    Ok((answer, guard))
}

#[inline(never)]
pub fn tell(mut guard: Guard, table: &[u8], outcome: u8) -> Result<Guard, u8> {
    told(&mut guard, table, outcome)?;
    Ok(guard)
}

#[inline(never)]
pub fn row_tell(row: &mut [Guard], job: usize, table: &[u8], outcome: u8) -> Result<(), u8> {
    test_job(row, job)?;
    told(&mut row[job], table, outcome)
}

fn told(guard: &mut Guard, table: &[u8], outcome: u8) -> Result<(), u8> {
    let next = moved(table, guard.state, outcome)?;
    guard.count = guard.count.checked_add(1).ok_or(17)?;
    guard.lost |= next == 0xFFFF;
    if !guard.lost {
        guard.state = next;
        guard.outcomes.copy_within(1.., 0);
        guard.outcomes[HELD - 1] = outcome == 1;
    }
    Ok(())
}

fn moved(table: &[u8], state: u16, outcome: u8) -> Result<u16, u8> {
    let (miss, hit) = entry(table, state)?;
    match outcome {
        0 => Ok(miss),
        1 => Ok(hit),
        _ => Err(13),
    }
}

fn test_job<T>(row: &[T], job: usize) -> Result<(), u8> {
    if job >= row.len() || row.len() > 16 {
        return Err(14);
    }
    Ok(())
}

fn entry(table: &[u8], state: u16) -> Result<(u16, u16), u8> {
    if table.len() < 7 {
        return Err(10);
    }
    let length = u32::from_be_bytes([table[0], table[1], table[2], table[3]]) as usize;
    if length != table.len() - 4 {
        return Err(10);
    }
    if table[4] != 1 {
        return Err(11);
    }
    let pair = |at: usize| u16::from_be_bytes([table[at], table[at + 1]]);
    let states = pair(5);
    if states == 0 || states > 32_768 || length != 3 + 4 * usize::from(states) || state >= states {
        return Err(12);
    }
    let at = 7 + 4 * usize::from(state);
    let (miss, hit) = (pair(at), pair(at + 2));
    if (miss >= states && miss != 0xFFFF) || hit >= states {
        return Err(12);
    }
    Ok((miss, hit))
}

/// What follows in a table that was tested.
pub fn after(table: &[u8], state: u16, outcome: u8) -> u16 {
    let at = 7 + 4 * usize::from(state) + 2 * usize::from(outcome);
    u16::from_be_bytes([table[at], table[at + 1]])
}
