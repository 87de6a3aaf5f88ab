//! Tests of the Floelinnet archive and of the printing program from outside.
//!
//! `reference` is docs/RULES.md by brute force, `floe` calls the archive, and the files under `tests/` hold the two
//! against each other. From this folder, after `make dist target/bin/print_table` in the root:
//!
//!     cargo test --release --offline
//!
//! Every run draws the same cases. FLOELINNET_CASES=10 draws ten times as many.

pub mod damage;
pub mod draw;
pub mod expected;
pub mod floe;
pub mod memory;
pub mod pages;
pub mod reference;
pub mod tools;
