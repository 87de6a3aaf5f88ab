//! C and C++ programs over the header and the archive.

use std::env;
use std::io::{stderr, Write};
use std::path::{Path, PathBuf};
use std::process::{Command, Output};
use std::sync::Once;

use floelinnet_tests::tools;

/// The compilers and the editions of both languages that the header is written for.
pub const COMPILERS: [&[&str]; 6] = [
    &["gcc", "-std=c99"],
    &["gcc", "-std=c11"],
    &["g++", "-std=c++17", "-x", "c++"],
    &["clang", "-std=c99"],
    &["clang", "-std=c11"],
    &["clang++", "-std=c++17", "-x", "c++"],
];

/// A file of the repository.
pub fn file(path: &str) -> PathBuf {
    Path::new(env!("CARGO_MANIFEST_DIR")).join("..").join(path)
}

/// A file of the tests' own.
pub fn made(name: &str) -> PathBuf {
    Path::new(env!("CARGO_TARGET_TMPDIR")).join(name)
}

/// The archive that `make dist` copies from where `rt lib` leaves it, or the one in the folder that
/// FLOELINNET_ARCHIVE_DIR names.
pub fn archive() -> PathBuf {
    let folder = env::var_os("FLOELINNET_ARCHIVE_DIR").unwrap_or_else(|| "../target/staticlib".into());
    Path::new(env!("CARGO_MANIFEST_DIR")).join(folder).join("libfloelinnet.a")
}

/// The command that compiles a source with this compiler and asks for every warning.
fn command(compiler: &[&str], source: &Path) -> Command {
    let mut command = tools::compiler(compiler[0]);
    command.args(&compiler[1..]).args(["-Wall", "-Wextra", "-Wpedantic", "-I"]).arg(file("include")).arg(source);
    command
}

/// Compiles a source with this compiler, without a warning, and gives the program.
pub fn compile(compiler: &[&str], source: &Path) -> PathBuf {
    let stem = source.file_stem().expect("a source has a name").to_string_lossy();
    let program = made(&format!("{stem}-{}{}", compiler[0], compiler[1]));
    let mut command = command(compiler, source);
    output(command.arg("-Werror").args(["-x", "none"]).arg(archive()).arg("-o").arg(&program));
    program
}

/// The program prints these lines, compiled by every compiler as C and as C++. Under valgrind it does so too, with
/// nothing read that was never written, nothing touched outside what was lent and nothing left unreleased: as C by gcc
/// and as C++ by clang. Where an emulator runs the program valgrind can't.
pub fn prints(source: &Path, lines: &[&str]) {
    prints_given(&[], source, lines);
}

/// The same of a program that is given these files, by their names from the root.
pub fn prints_given(files: &[&str], source: &Path, lines: &[&str]) {
    for compiler in COMPILERS {
        let program = compile(compiler, source);
        let alone = output(tools::program(&program).args(files).current_dir(file("")));
        assert_eq!(alone.lines().collect::<Vec<_>>(), lines, "{program:?}");
        if tools::emulator().is_some() {
            say_no_valgrind();
        } else if [COMPILERS[1], COMPILERS[5]].contains(&compiler) {
            let valgrind = &mut Command::new("valgrind");
            valgrind.args(["--quiet", "--error-exitcode=9", "--leak-check=full"]).arg(&program);
            valgrind.args(files).current_dir(file(""));
            assert_eq!(output(valgrind), alone, "{program:?} under valgrind");
        }
    }
}

/// Says so once, past the test harness, which shows what a test prints only where it fails.
#[allow(clippy::explicit_write)] // eprintln! goes to the harness
fn say_no_valgrind() {
    static SAID: Once = Once::new();
    let line = "C and C++ programs run here without valgrind, which needs an x86-64 machine for them";
    SAID.call_once(|| writeln!(stderr(), "{line}").unwrap());
}

/// What this compiler warns of in a source, one line a warning.
pub fn warnings(compiler: &[&str], source: &Path) -> Vec<String> {
    let Output { status, stderr, .. } = run(command(compiler, source).args(["-c", "-o", "/dev/null"]));
    let said = String::from_utf8_lossy(&stderr);
    assert!(status.success(), "{compiler:?}: {said}");
    said.lines().filter(|line| line.contains("warning:")).map(Into::into).collect()
}

fn run(command: &mut Command) -> Output {
    command.output().unwrap_or_else(|error| panic!("{command:?}: {error}"))
}

/// Runs a command that ends with status 0 and says nothing on standard error, and gives its standard output.
pub fn output(command: &mut Command) -> String {
    let Output { status, stdout, stderr } = run(command);
    let errors = String::from_utf8_lossy(&stderr);
    assert!(status.success() && errors.is_empty(), "{command:?}: {status}\n{errors}");
    String::from_utf8(stdout).expect("the output is text")
}
