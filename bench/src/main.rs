//! Times the archive beside straightforward Rust programs that do the same job, and prints the figures as a
//! Markdown table for docs/BENCHMARKS.md:
//!
//!     make bench
//!
//! FLOELINNET_ARCHIVE_DIR names another folder to take the archive from. A part has a module with its inputs, and
//! one under `plain` with the program beside it. Before any timing both sides must give the same answer.

mod builder;
mod clock;
mod compare;
mod figures;
mod guard;
mod log;
mod plain;
mod search;
mod sets;
mod verdict;

fn main() {
    let mut figures = figures::Figures::new();
    builder::measure(&mut figures);
    guard::measure(&mut figures);
    compare::measure(&mut figures);
    verdict::measure(&mut figures);
    log::measure(&mut figures);
    sets::measure(&mut figures);
    figures.print();
}
