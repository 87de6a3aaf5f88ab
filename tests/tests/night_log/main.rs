//! The four calls on a night log against the reference.

mod edge;
mod judge;
mod read;
mod round_trip;
mod vast;
mod write;

/// What a failed comparison shows of a pattern.
fn shown(pattern: &[u8]) -> String {
    let digits: String = pattern.iter().take(64).map(|outcome| format!("{outcome}")).collect();
    format!("{} outcomes, {digits}", pattern.len())
}
