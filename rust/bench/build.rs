//! Has an older archive of the library linked beside the one that is timed, where
//! `AGREEMENT_BEFORE` names one. The functions of each get a prefix, so that both can be
//! called in one process, and each function starts a line of the cache, so that it makes
//! less difference where the linker puts it.

use std::env;
use std::path::{Path, PathBuf};
use std::process::{self, Command};

const OLDER_VARIABLE: &str = "AGREEMENT_BEFORE";

fn main() {
    println!("cargo:rerun-if-changed=build.rs");
    println!("cargo:rerun-if-env-changed={OLDER_VARIABLE}");
    println!("cargo:rustc-check-cfg=cfg(before)");
    let Some(older) = env::var_os(OLDER_VARIABLE).map(PathBuf::from) else {
        return;
    };
    // Cargo runs this script in the crate's folder, not where the caller stands.
    if !older.is_absolute() {
        refuse(&format!(
            "{OLDER_VARIABLE} is the relative path {:?}, and has to be absolute",
            older.display().to_string()
        ));
    }
    let directory = env::var_os("DEP_AGREEMENT_DIRECTORY").expect("the wrapper tells its archive");
    let newer = PathBuf::from(directory).join("libagreement.a");
    let out = PathBuf::from(env::var_os("OUT_DIR").expect("cargo tells where to write"));
    println!("cargo:rustc-link-search=native={}", out.display());
    renamed(&older, "before", &out);
    renamed(&newer, "now", &out);
    println!("cargo:rustc-cfg=before");
}

/// Has a copy of the archive linked in which every name has the prefix, but for that of the
/// one function of the C library that the archive calls.
fn renamed(archive: &Path, prefix: &str, out: &Path) {
    println!("cargo:rerun-if-changed={}", archive.display());
    let copy = out.join(format!("lib{prefix}.a"));
    objcopy(
        Command::new("objcopy")
            .arg(format!("--prefix-symbols={prefix}_"))
            .arg("--set-section-alignment=.text.*=64")
            .arg(archive)
            .arg(&copy),
        archive,
    );
    objcopy(
        Command::new("objcopy")
            .arg(format!("--redefine-sym={prefix}_memset=memset"))
            .arg(&copy),
        &copy,
    );
    println!("cargo:rustc-link-lib=static={prefix}");
}

fn objcopy(command: &mut Command, archive: &Path) {
    match command.status() {
        Ok(status) if status.success() => (),
        Ok(_) => refuse(&format!("objcopy cannot copy {}", archive.display())),
        Err(why) => refuse(&format!("objcopy of GNU binutils does not start: {why}")),
    }
}

fn refuse(why: &str) -> ! {
    eprintln!("error: {why}");
    process::exit(1)
}
