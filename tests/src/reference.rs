//! The rules, docs/RULES.md, by brute force and with no look at the library. Clear rather than fast.
//!
//! A pattern is a slice of outcomes, oldest first: 1 a hit, 0 a miss. The rules are quoted where they are used.

pub mod carry;
pub mod compare;
pub mod guard;
pub mod limits;
pub mod night_log;
pub mod row;
pub mod sets;
pub mod table;
pub mod verdict;

pub const MISS: u8 = 0;
pub const HIT: u8 = 1;

/// The number of a refusal and the value "beside it".
#[derive(Clone, Copy, PartialEq, Eq, Debug)]
pub struct Refusal {
    pub number: u8,
    pub at: usize,
}

pub fn refuse<T>(number: u8, at: usize) -> Result<T, Refusal> {
    Err(Refusal { number, at })
}

/// "a number of several bytes has its highest byte first"
pub fn big_endian(bytes: &[u8]) -> usize {
    bytes.iter().fold(0, |sum, &byte| sum * 256 + usize::from(byte))
}

/// All patterns of at most `jobs` jobs. "The pattern with fewer jobs comes first. Where two have equally many, look at
/// the first place at which they differ: the one with the miss there comes first."
pub fn patterns_in_order(jobs: usize) -> impl Iterator<Item = Vec<u8>> {
    (0..=jobs).flat_map(|length| (0..1 << length).map(move |number| outcomes(number, length)))
}

/// A number's binary digits as outcomes: counting up goes through the patterns of one length in order.
/// "the newest outcome is its lowest bit"
pub fn outcomes(number: usize, length: usize) -> Vec<u8> {
    (0..length).rev().map(|place| (number >> place & 1) as u8).collect()
}
