//! RULES, Bytes of a carry-over record: writing a record and reading it back.

use std::array::from_fn;

use super::guard::{Guard, HELD};
use super::limits::{width, OLD_LONGEST_WINDOW};
use super::table::{check, entry};
use super::verdict::outcomes_only;
use super::{big_endian, refuse, sets, Refusal, HIT};

/// The length field and the version.
pub const HEAD: usize = 4 + 1;
/// The outcomes that the guard holds, how many it was told, and whether it is lost.
pub const TAIL: usize = HELD + COUNT_AND_LOST;
/// How many outcomes a record of version 1 has: one less than the longest window that its set may have.
pub const OLD_HELD: usize = OLD_LONGEST_WINDOW - 1;
pub const OLD_TAIL: usize = OLD_HELD + COUNT_AND_LOST;
const COUNT_AND_LOST: usize = 8 + 1;

/// The record of a guard and the bytes of a set.
pub fn record(guard: Guard, set: &[u8]) -> Vec<u8> {
    laid_out(2, guard, &guard.outcomes, set)
}

/// The record that the version before wrote of this guard, which held the newest eleven of these outcomes.
pub fn old_record(guard: Guard, set: &[u8]) -> Vec<u8> {
    laid_out(1, guard, &guard.outcomes[HELD - OLD_HELD..], set)
}

fn laid_out(version: u8, guard: Guard, outcomes: &[bool], set: &[u8]) -> Vec<u8> {
    let mut rest = vec![version];
    rest.extend(set);
    // "one byte each, the oldest first"
    rest.extend(outcomes.iter().map(|&hit| if hit { 1 } else { 0 }));
    // "a number of several bytes has its highest byte first"
    rest.extend((0..8).rev().map(|byte| (guard.count / 256u64.pow(byte) % 256) as u8));
    rest.push(if guard.lost { 1 } else { 0 });
    // "how many bytes follow these four"
    let length = rest.len();
    [vec![0, 0, (length / 256) as u8, (length % 256) as u8], rest].concat()
}

/// As reading a set, of the set's bytes; then 9 with 29 and the bytes of the set. The record, where it is written into the
/// lent bytes.
pub fn write(guard: Guard, set: &[u8], lent: &mut [u8]) -> Result<Vec<u8>, Refusal> {
    sets::read(set)?;
    let needed = HEAD + TAIL + set.len();
    if lent.len() < needed {
        return refuse(9, needed);
    }
    // Nothing is ever written "to those of a log's or a record's buffer after the log or the record".
    let record = record(guard, set);
    lent.iter_mut().zip(&record).for_each(|(place, byte)| *place = *byte);
    Ok(record)
}

/// "18; then as reading a set, of the set's bytes in it; then 20; then 13 over its outcomes; then 19; then as the table
/// check, the whole table; then 25".
pub fn read(record: &[u8], table: &[u8]) -> Result<Guard, Refusal> {
    let (set, held, tail) = parts(record)?;
    // A set with a window of more than 12 jobs: the eleven outcomes of a version 1 record don't reach back so far.
    let limits = sets::read(set)?;
    if held == OLD_HELD && limits.iter().any(|&limit| width(limit) > OLD_LONGEST_WINDOW) {
        return refuse(20, 0);
    }
    // The place in 13 counts among the record's own outcomes.
    let (outcomes, tail) = tail.split_at(held);
    outcomes_only(outcomes)?;
    let (count, lost) = tail.split_at(8);
    // "the lost byte of the record is more than 1"
    if lost[0] > 1 {
        return refuse(19, 0);
    }
    let n = check(table)?;
    // Hits for the outcomes older than those of a version 1 record.
    let outcomes = [&vec![HIT; HELD - held], outcomes].concat();
    let mut state = 0;
    for &outcome in &outcomes {
        let next = entry(table, n, state)?;
        state = match (outcome, next.miss) {
            (HIT, _) => next.hit,
            (_, Some(miss)) => miss,
            // "the outcomes of the record can't be walked on the table from state 0"
            (_, None) => return refuse(25, 0),
        };
    }
    // "in the state where the walk of the outcomes ends, lost as the record says, with its outcomes and its count"
    Ok(Guard {
        state: state as u16,
        lost: lost[0] == 1,
        outcomes: from_fn(|place| outcomes[place] == HIT),
        count: big_endian(count) as u64,
    })
}

/// The bytes of the set, how many outcomes there are, and the bytes from these on. 18: a version that is neither 1 nor 2,
/// fewer bytes than its records have without a set, or a length field that isn't how many bytes follow it.
fn parts(record: &[u8]) -> Result<(&[u8], usize, &[u8]), Refusal> {
    let (held, tail) = match record.get(4) {
        Some(1) => (OLD_HELD, OLD_TAIL),
        Some(2) => (HELD, TAIL),
        _ => return refuse(18, 0),
    };
    if record.len() < HEAD + tail || big_endian(&record[..4]) != record.len() - 4 {
        return refuse(18, 0);
    }
    let (set, tail) = record[HEAD..].split_at(record.len() - HEAD - tail);
    Ok((set, held, tail))
}
