//! A plain writer and a plain reader of carry-over records, with the tests that the rules name.

use super::guard::{after, start, Guard, HELD};
use super::sets::{self, Refusal};
use super::width;

const HEAD: usize = 5;
/// The outcomes, the count and the lost byte.
const TAIL: usize = HELD + 9;
/// What a record of version 1 has outcomes for.
const OLD_LONGEST_WINDOW: usize = 12;

#[inline(never)]
pub fn write(guard: &Guard, set: &[u8], record: &mut [u8]) -> Result<usize, Refusal> {
    sets::read(set)?;
    let length = HEAD + set.len() + TAIL;
    if record.len() < length {
        return Err((9, length));
    }
    record[..4].copy_from_slice(&(length as u32 - 4).to_be_bytes());
    record[4] = 2;
    let (place, tail) = record[HEAD..length].split_at_mut(set.len());
    place.copy_from_slice(set);
    tail[..HELD].copy_from_slice(&guard.outcomes.map(u8::from));
    tail[HELD..TAIL - 1].copy_from_slice(&guard.count.to_be_bytes());
    tail[TAIL - 1] = u8::from(guard.lost);
    Ok(length)
}

#[inline(never)]
pub fn read(record: &[u8], table: &[u8]) -> Result<Guard, Refusal> {
    let length = record.first_chunk().map(|&field| u32::from_be_bytes(field) as usize);
    let held = match record.get(4) {
        Some(1) => OLD_LONGEST_WINDOW - 1,
        Some(2) => HELD,
        _ => return Err((18, 0)),
    };
    if record.len() < HEAD + held + 9 || length != Some(record.len() - 4) {
        return Err((18, 0));
    }
    let (set, tail) = record[HEAD..].split_at(record.len() - HEAD - held - 9);
    let set = sets::read(set)?;
    if held < HELD && set.limits().iter().any(|limit| width(limit) > OLD_LONGEST_WINDOW) {
        return Err((20, 0));
    }
    let (outcomes, tail) = tail.split_at(held);
    if let Some(place) = outcomes.iter().position(|&outcome| outcome > 1) {
        return Err((13, place));
    }
    let (count, lost) = tail.split_at(8);
    if lost[0] > 1 {
        return Err((19, 0));
    }
    let mut guard = start(table).map_err(|number| (number, 0))?;
    for place in 0..HELD {
        let outcome = if place < HELD - held { 1 } else { outcomes[place - (HELD - held)] };
        guard.outcomes[place] = outcome == 1;
        guard.state = after(table, guard.state, outcome);
        if guard.state == 0xFFFF {
            return Err((25, 0));
        }
    }
    guard.count = count.iter().fold(0, |count, &byte| count << 8 | u64::from(byte));
    guard.lost = lost[0] == 1;
    Ok(guard)
}
