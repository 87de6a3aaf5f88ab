//! Prints the table of a limits file, in the words of the printing program, from the library's own build: with windows of
//! up to 16 jobs, where the program takes 12.
//!
//!     cargo run --example table sets/pulse-16.limits

use std::error::Error;
use std::fmt::Write;
use std::process::ExitCode;
use std::{env, fs};

use floelinnet::{build, LONGEST_TABLE, WORK_ENTRIES};

fn main() -> ExitCode {
    let Some(limits) = env::args_os().nth(1) else {
        eprintln!("which limits? As in: table sets/pulse-16.limits");
        return ExitCode::FAILURE;
    };
    match fs::read(&limits).map_err(Into::into).and_then(|set| lines(&set)) {
        Ok(lines) => {
            print!("{lines}");
            ExitCode::SUCCESS
        }
        Err(error) => {
            eprintln!("{}: {error}", limits.to_string_lossy());
            ExitCode::FAILURE
        }
    }
}

/// The number of states; then for each its number, the state after a miss, or `-` where none is allowed, and the state
/// after a hit.
fn lines(set: &[u8]) -> Result<String, Box<dyn Error>> {
    let (mut work, mut table) = (vec![0; WORK_ENTRIES], vec![0; LONGEST_TABLE]);
    let length = build(set, &mut work, &mut table)?;
    let states = &table[7..length];
    let mut lines = format!("states {}\n", states.len() / 4);
    for (number, state) in states.chunks_exact(4).enumerate() {
        let hit = u16::from_be_bytes([state[2], state[3]]);
        match u16::from_be_bytes([state[0], state[1]]) {
            0xFFFF => writeln!(lines, "{number} - {hit}")?,
            miss => writeln!(lines, "{number} {miss} {hit}")?,
        }
    }
    Ok(lines)
}
