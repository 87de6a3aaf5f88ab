//! Were stored visits kept? Judges night logs under a set of limits, all of them files. It fails where one of the logs
//! wasn't judged.
//!
//!     cargo run --example visit sets/breath.limits logs/*.log

use std::error::Error;
use std::path::{Path, PathBuf};
use std::process::ExitCode;
use std::{env, fs};

use floelinnet::{judge_log, read_set, LimitSet, Verdict};

fn main() -> ExitCode {
    let names: Vec<PathBuf> = env::args_os().skip(1).map(PathBuf::from).collect();
    let Some((limits, logs)) = names.split_first().filter(|(_, logs)| !logs.is_empty()) else {
        eprintln!("which limits and logs? As in: visit sets/breath.limits logs/calm.log");
        return ExitCode::FAILURE;
    };
    let set = match set(limits) {
        Ok(set) => set,
        Err(error) => return failed(limits, &*error),
    };
    let mut status = ExitCode::SUCCESS;
    for log in logs {
        match verdict(set.bytes(), log) {
            Ok(verdict) => println!("{}: {verdict}", log.display()),
            Err(error) => status = failed(log, &*error),
        }
    }
    status
}

fn set(limits: &Path) -> Result<LimitSet, Box<dyn Error>> {
    Ok(read_set(&fs::read(limits)?)?)
}

/// The bytes are judged as they come: what is no log, the library refuses.
fn verdict(set: &[u8], log: &Path) -> Result<Verdict, Box<dyn Error>> {
    Ok(judge_log(set, &fs::read(log)?)?)
}

fn failed(name: &Path, error: &dyn Error) -> ExitCode {
    eprintln!("{}: {error}", name.display());
    ExitCode::FAILURE
}
