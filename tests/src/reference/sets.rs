//! RULES, Bytes of a set and A set in memory: reading and writing.

use super::limits::{limits_nothing, Limit, LONGEST_WINDOW};
use super::{big_endian, refuse, Refusal};

pub fn read(bytes: &[u8]) -> Result<Vec<Limit>, Refusal> {
    read_within(LONGEST_WINDOW, bytes)
}

/// The same where the longest window has so many jobs.
pub fn read_within(longest: usize, bytes: &[u8]) -> Result<Vec<Limit>, Refusal> {
    // "the set has under 6 bytes, or its length field isn't how many bytes follow it"
    if bytes.len() < 6 || big_endian(&bytes[0..4]) != bytes.len() - 4 {
        return refuse(1, 0);
    }
    // "the version of the set isn't 1"
    if bytes[4] != 1 {
        return refuse(2, 0);
    }
    // "c .. is 0 or more than 8"
    let c = usize::from(bytes[5]);
    if c == 0 || c > 8 {
        return refuse(3, 0);
    }
    // "the length field of the set isn't 2+3c"
    if big_endian(&bytes[0..4]) != 2 + 3 * c {
        return refuse(4, 0);
    }
    // "3 for each limit, in order": "its kind, its x, its k"
    let limits: Vec<Limit> =
        bytes[6..].chunks(3).map(|limit| Limit { kind: limit[0], x: limit[1], k: limit[2] }).collect();
    test_all(longest, &limits)?;
    Ok(limits)
}

/// "3; then limit after limit, each for 5, 6 and 7; then 21; then 9 with 6+3c". Of a set in memory "the records from the
/// count on are not in use", and "nothing looks at them".
pub fn write(count: u64, places: &[Limit; 8], room: usize) -> Result<Vec<u8>, Refusal> {
    // "the count of a set in memory, is 0 or more than 8"
    if count == 0 || count > 8 {
        return refuse(3, 0);
    }
    let limits = &places[..count as usize];
    test_all(LONGEST_WINDOW, limits)?;
    // "the buffer is shorter than what must be written: .. 6+3c of a set"
    let bytes = bytes(limits);
    if room < bytes.len() {
        return refuse(9, bytes.len());
    }
    Ok(bytes)
}

/// "then limit after limit, each for 5, 6 and 7; then 21"
fn test_all(longest: usize, limits: &[Limit]) -> Result<(), Refusal> {
    for (number, limit) in limits.iter().enumerate() {
        test(longest, limit, number)?;
    }
    // "the set limits nothing"
    if limits_nothing(limits) {
        return refuse(21, 0);
    }
    Ok(())
}

fn test(longest: usize, limit: &Limit, number: usize) -> Result<(), Refusal> {
    let longest = longest as u8;
    // "the kind of a limit is more than 3"
    if limit.kind > 3 {
        return refuse(5, number);
    }
    // "the k of a limit isn't 1 to 16; for kind 3, isn't 0"
    let ks = if limit.kind == 3 { 0..=0 } else { 1..=longest };
    if !ks.contains(&limit.k) {
        return refuse(6, number);
    }
    // "the x of a limit isn't 0 to k; for kind 3, isn't 1 to 16"
    let xs = if limit.kind == 3 { 1..=longest } else { 0..=limit.k };
    if !xs.contains(&limit.x) {
        return refuse(7, number);
    }
    Ok(())
}

/// The bytes of a set, with "the length field, 2+3c".
pub fn bytes(limits: &[Limit]) -> Vec<u8> {
    let mut bytes = vec![0, 0, 0, (2 + 3 * limits.len()) as u8, 1, limits.len() as u8];
    for limit in limits {
        bytes.extend([limit.kind, limit.x, limit.k]);
    }
    bytes
}
