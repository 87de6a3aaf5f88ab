//! RULES, The row. A refused call leaves the row as it is: the caller's copy is only changed on Ok.

use super::guard::{self, Answer, Guard};
use super::{refuse, Refusal};

/// "14; then as the call on a single guard": "the job's number, from 0, isn't below the count of guards in the row, or
/// that count is more than 16".
fn test(row: &[Guard], job: usize) -> Result<(), Refusal> {
    if job >= row.len() || row.len() > 16 {
        return refuse(14, 0);
    }
    Ok(())
}

/// "No other guard changes".
pub fn start(row: &mut [Guard], job: usize, table: &[u8]) -> Result<(), Refusal> {
    test(row, job)?;
    row[job] = guard::start(table)?;
    Ok(())
}

pub fn ask(row: &[Guard], job: usize, table: &[u8]) -> Result<Answer, Refusal> {
    test(row, job)?;
    guard::ask(row[job], table)
}

pub fn tell(row: &mut [Guard], job: usize, table: &[u8], outcome: u8) -> Result<(), Refusal> {
    test(row, job)?;
    row[job] = guard::tell(row[job], table, outcome)?;
    Ok(())
}
