//! The night log: the log of a pattern, and what is written, handed out and judged. Quoted are the words in which it was
//! asked for.
//!
//! Bytes are taken apart and put together as texts of binary digits, eight a byte and the high bit first, so that nothing
//! is shifted or masked here.

use super::verdict::{self, outcomes_only, Lost};
use super::{refuse, sets, Refusal};

/// "four-byte big-endian length of the rest, version byte 1, four bytes count of outcomes, then outcomes packed eight to
/// a byte, oldest in the high bit, unused low bits zero"
pub fn log(pattern: &[u8]) -> Vec<u8> {
    let mut packed: String = pattern.iter().map(|outcome| if *outcome == 1 { '1' } else { '0' }).collect();
    packed += &"0".repeat(packed.len().next_multiple_of(8) - packed.len());
    let rest = format!("{:08b}{:032b}{packed}", 1, pattern.len());
    bytes(&format!("{:032b}{rest}", rest.len() / 8))
}

/// "The writer tests 15 (over 4,294,967,295 outcomes), 13, then 9." The log, where it is written into the lent bytes.
pub fn write(pattern: &[u8], lent: &mut [u8]) -> Result<Vec<u8>, Refusal> {
    if pattern.len() > 4_294_967_295 {
        return refuse(15, 0);
    }
    outcomes_only(pattern)?;
    // "9 means the buffer is shorter than what must be written and returns the length needed"
    let log = log(pattern);
    if lent.len() < log.len() {
        return refuse(9, log.len());
    }
    // "nothing is written past the end"
    lent.iter_mut().zip(&log).for_each(|(place, byte)| *place = *byte);
    Ok(log)
}

/// The outcomes that a log holds. "other new numbers return 0"
pub fn outcomes(log: &[u8]) -> Result<Vec<u8>, Refusal> {
    // "15 for under 9 bytes"
    if log.len() < 9 {
        return refuse(15, 0);
    }
    let digits = digits(log);
    let (length, rest) = digits.split_at(32);
    let (version, counted) = rest.split_at(8);
    let (count, packed) = counted.split_at(32);
    // "a length field that isn't the count of bytes after it"
    if 8 * number(length) != rest.len() {
        return refuse(15, 0);
    }
    // "another version"
    if version != "00000001" {
        return refuse(15, 0);
    }
    // "or a length field that isn't 5 plus the bytes the count needs": there is room for the count, and with a byte less
    // there isn't.
    let count = number(count);
    if count > packed.len() || count + 8 <= packed.len() {
        return refuse(15, 0);
    }
    // "16 for unused bits that aren't zero"
    let (outcomes, unused) = packed.split_at(count);
    if unused.contains('1') {
        return refuse(16, 0);
    }
    Ok(outcomes.bytes().map(|digit| digit - b'0').collect())
}

/// What one call of the reader hands out, and where it then stands.
#[derive(Clone, Copy, PartialEq, Eq, Debug)]
pub struct Read {
    /// An outcome; None is the end.
    pub answer: Result<Option<u8>, Refusal>,
    pub place: u64,
}

/// "Opening a log and each call of the reader test 15, then 16".
pub fn open(log: &[u8]) -> Result<(), Refusal> {
    outcomes(log).map(drop)
}

/// "hands out one outcome a call"
pub fn next(place: u64, log: &[u8]) -> Read {
    handed_out(place, &outcomes(log))
}

/// The same of a log that holds these outcomes, or is refused. The place is how many were handed out.
pub fn handed_out(place: u64, held: &Result<Vec<u8>, Refusal>) -> Read {
    match held.as_ref().map(|outcomes| outcomes.get(place as usize)) {
        Ok(Some(&outcome)) => Read { answer: Ok(Some(outcome)), place: place + 1 },
        // "past the last outcome a call answers end": no outcome was handed out
        Ok(None) => Read { answer: Ok(None), place },
        // "a refusal keeps the place"
        Err(&refusal) => Read { answer: Err(refusal), place },
    }
}

/// "as reading a set; then 15, 16", and else "what the verdict on the outcomes that the log holds is"
pub fn judge(set: &[u8], log: &[u8]) -> Result<Option<Lost>, Refusal> {
    sets::read(set)?;
    verdict::judge(set, &outcomes(log)?)
}

/// As `{:08b}` shows each byte.
fn digits(bytes: &[u8]) -> String {
    let worth = |byte: u8| [128, 64, 32, 16, 8, 4, 2, 1].map(|worth| if byte / worth % 2 == 1 { '1' } else { '0' });
    bytes.iter().flat_map(|&byte| worth(byte)).collect()
}

fn number(digits: &str) -> usize {
    usize::from_str_radix(digits, 2).expect("digits are binary")
}

fn bytes(digits: &str) -> Vec<u8> {
    (0..digits.len() / 8).map(|byte| number(&digits[8 * byte..8 * byte + 8]) as u8).collect()
}
