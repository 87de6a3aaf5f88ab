//! A plain packer, one plain call of a reader and a plain judge of night logs, with the tests that the rules name.

use super::sets::{read, Refusal};
use super::verdict::{windows_once, Lost, HITS};

#[inline(never)]
pub fn write(pattern: &[u8], log: &mut [u8]) -> Result<usize, Refusal> {
    let Ok(count) = u32::try_from(pattern.len()) else {
        return Err((15, 0));
    };
    if let Some(place) = pattern.iter().position(|&outcome| outcome > 1) {
        return Err((13, place));
    }
    let packed = pattern.len().div_ceil(8);
    let length = 9 + packed;
    if log.len() < length {
        return Err((9, length));
    }
    log[..4].copy_from_slice(&(5 + packed as u32).to_be_bytes());
    log[4] = 1;
    log[5..9].copy_from_slice(&count.to_be_bytes());
    for (byte, eight) in log[9..].iter_mut().zip(pattern.chunks(8)) {
        *byte = eight.iter().enumerate().fold(0, |byte, (place, &outcome)| byte | outcome << (7 - place));
    }
    Ok(length)
}

/// The outcome at the place, or none past the last one, and the place then.
#[inline(never)]
pub fn next(place: u64, log: &[u8]) -> Result<(Option<bool>, u64), Refusal> {
    let count = count(log)?;
    if place >= count as u64 {
        return Ok((None, place));
    }
    Ok((Some(outcome(log, place as usize)), place + 1))
}

/// Unpacks the log between hits and looks at each window once.
pub fn judge(set: &[u8], log: &[u8]) -> Result<Lost, Refusal> {
    let set = read(set)?;
    let count = count(log)?;
    let mut around = vec![1; count + 2 * HITS.len()];
    for (place, byte) in around[HITS.len()..][..count].iter_mut().enumerate() {
        *byte = u8::from(outcome(log, place));
    }
    Ok(windows_once(set.limits(), &around))
}

fn outcome(log: &[u8], place: usize) -> bool {
    log[9 + place / 8] >> (7 - place % 8) & 1 == 1
}

fn count(log: &[u8]) -> Result<usize, Refusal> {
    let number = |at: usize| log[at..at + 4].iter().fold(0, |number, &byte| number << 8 | usize::from(byte));
    if log.len() < 9 || number(0) != log.len() - 4 || log[4] != 1 || number(0) != 5 + number(5).div_ceil(8) {
        return Err((15, 0));
    }
    let count = number(5);
    let unused = 8 * count.div_ceil(8) - count;
    if log[log.len() - 1] & ((1 << unused) - 1) != 0 {
        return Err((16, 0));
    }
    Ok(count)
}
