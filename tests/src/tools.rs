//! Compilers and programs, by the commands that stand for them here. On an x86-64 machine a compiler is called by its
//! name, and a program is run by itself. Elsewhere the environment names compilers for x86-64, in FLOELINNET_GCC,
//! FLOELINNET_GXX, FLOELINNET_CLANG and FLOELINNET_CLANGXX, and what runs their programs, in FLOELINNET_RUN: the
//! Makefile sets them.

use std::env;
use std::path::Path;
use std::process::Command;

/// The compiler that has this name on an x86-64 machine.
pub fn compiler(name: &str) -> Command {
    let variable = format!("FLOELINNET_{}", name.to_uppercase().replace('+', "X"));
    named(&variable).unwrap_or_else(|| Command::new(name))
}

/// The program, run here.
pub fn program(path: impl AsRef<Path>) -> Command {
    let path = path.as_ref();
    match emulator() {
        Some(mut emulator) => {
            emulator.arg(path);
            emulator
        }
        None => Command::new(path),
    }
}

/// What runs x86-64 programs where the machine itself doesn't.
pub fn emulator() -> Option<Command> {
    named("FLOELINNET_RUN")
}

/// The command that the environment names, with its arguments.
fn named(variable: &str) -> Option<Command> {
    let line = env::var(variable).ok()?;
    let mut words = line.split_whitespace();
    let mut command = Command::new(words.next()?);
    command.args(words);
    Some(command)
}
