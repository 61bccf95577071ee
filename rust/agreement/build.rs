//! Finds the proved static library and has it linked.
//!
//! It stands in the directory that `AGREEMENT_LIB_DIR` names, or else where
//! `sh tools/archive` puts it, in `target/staticlib` of the repository that this
//! crate lies in.

use std::env;
use std::path::{Path, PathBuf};
use std::process;

const DIRECTORY_VARIABLE: &str = "AGREEMENT_LIB_DIR";
const ARCHIVE: &str = "libagreement.a";

fn main() {
    println!("cargo:rerun-if-changed=build.rs");
    println!("cargo:rerun-if-env-changed={DIRECTORY_VARIABLE}");
    let directory = match env::var_os(DIRECTORY_VARIABLE) {
        Some(directory) => named(PathBuf::from(directory)),
        None => beside_this_crate(),
    };
    println!(
        "cargo:rerun-if-changed={}",
        directory.join(ARCHIVE).display()
    );
    println!("cargo:rustc-link-search=native={}", directory.display());
    println!("cargo:rustc-link-lib=static=agreement");
    // For a build script of a crate above: DEP_AGREEMENT_DIRECTORY.
    println!("cargo:directory={}", directory.display());
}

/// The directory that the variable names, which has to be there in full: cargo runs
/// this script in the crate's folder and the linker in another, so that a relative path
/// would mean two places, neither of which is where the caller stands.
fn named(directory: PathBuf) -> PathBuf {
    if !directory.is_absolute() {
        refuse(&format!(
            "{DIRECTORY_VARIABLE} is the relative path {:?}, and has to be absolute: \
             write {DIRECTORY_VARIABLE}=\"$PWD/{}\" if you mean it from where you stand",
            directory.display().to_string(),
            directory.display()
        ));
    }
    if !directory.join(ARCHIVE).is_file() {
        refuse(&format!(
            "there is no {ARCHIVE} in {}, which {DIRECTORY_VARIABLE} names: \
             `sh tools/install PREFIX` puts it into PREFIX/lib",
            directory.display()
        ));
    }
    directory
}

fn beside_this_crate() -> PathBuf {
    let this_crate = env::var_os("CARGO_MANIFEST_DIR").expect("cargo tells where the crate is");
    let directory = Path::new(&this_crate).join("../../target/staticlib");
    if !directory.join(ARCHIVE).is_file() {
        refuse(&format!(
            "there is no {}: run `sh tools/archive` in the repository, or, where this \
             crate stands alone, set {DIRECTORY_VARIABLE} to the absolute path of the folder that has {ARCHIVE}",
            directory.join(ARCHIVE).display()
        ));
    }
    directory
}

fn refuse(why: &str) -> ! {
    eprintln!("error: {why}");
    process::exit(1)
}
