//! The search for inputs that take the archive longest.

use crate::clock::longer;

/// Starts from the slowest of `known` and goes on from the slowest so far by `change`. What it ends with depends
/// on the times measured, so it differs a little from run to run.
pub fn slowest<T>(
    known: impl IntoIterator<Item = T>,
    changes: usize,
    mut change: impl FnMut(&T) -> T,
    call: impl Fn(&T),
) -> T {
    let slower = |a: T, b: T| if longer(|| call(&a), || call(&b)) { a } else { b };
    let start = known.into_iter().reduce(|slowest, other| slower(other, slowest)).expect("one is known");
    (0..changes).fold(start, |slowest, _| slower(change(&slowest), slowest))
}
