//! Links libfloelinnet.a from the folder that FLOELINNET_ARCHIVE_DIR names; where it isn't set, from either folder into
//! which `make dist` copies the archive.

use std::env;
use std::path::{Path, PathBuf};
use std::process::exit;

fn main() {
    println!("cargo:rerun-if-env-changed=FLOELINNET_ARCHIVE_DIR");
    let folders = match env::var_os("FLOELINNET_ARCHIVE_DIR") {
        Some(folder) => vec![folder],
        None => vec!["../../target/staticlib".into(), "../../dist/lib".into()],
    };
    let here = PathBuf::from(env::var_os("CARGO_MANIFEST_DIR").expect("cargo names the crate's folder"));
    let folders: Vec<PathBuf> = folders.into_iter().map(|folder| here.join(folder)).collect();
    let Some(folder) = folders.iter().find(|folder| has_archive(folder)) else {
        eprintln!(
            "no libfloelinnet.a in {folders:?}: run `make dist` in the root of the repository, \
             or name the folder that has it in FLOELINNET_ARCHIVE_DIR"
        );
        exit(1);
    };
    println!("cargo:rustc-link-search=native={}", folder.display());
    println!("cargo:rustc-link-lib=static=floelinnet");
}

/// Cargo is told of every archive that is looked for, so that one that comes or changes later is linked then.
fn has_archive(folder: &Path) -> bool {
    let archive = folder.join("libfloelinnet.a");
    println!("cargo:rerun-if-changed={}", archive.display());
    archive.exists()
}
