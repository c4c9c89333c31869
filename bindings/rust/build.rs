//! Says where the archive is that the clock is linked from.

use std::env;
use std::path::{Path, PathBuf};

const FOLDER_VARIABLE: &str = "TALLOWREED_ARCHIVE_DIR";

fn main() {
    println!("cargo:rerun-if-env-changed={FOLDER_VARIABLE}");
    if !for_x86_64_linux() {
        println!(
            "cargo:warning=libsd2068_abi.a is for x86-64 Linux: for another target this package \
             can be checked and not linked"
        );
        return;
    }
    let folder = folder();
    let archive = folder.join("libsd2068_abi.a");
    println!("cargo:rerun-if-changed={}", archive.display());
    // A check links nothing and must go through without the archive: what links then fails right
    // after this line.
    if !archive.is_file() {
        println!(
            "cargo:warning={} is missing, and without it nothing links: \
             run `tools/archive`, or let {FOLDER_VARIABLE} name its folder",
            archive.display()
        );
    }
    println!("cargo:rustc-link-search=native={}", folder.display());
    println!("cargo:rustc-link-lib=static=sd2068_abi");
}

fn for_x86_64_linux() -> bool {
    let is = |variable, value| env::var(variable).is_ok_and(|held| held == value);
    is("CARGO_CFG_TARGET_ARCH", "x86_64") && is("CARGO_CFG_TARGET_OS", "linux")
}

/// The folder that the variable names, as seen from this package, or the one that the archive is
/// built into.
fn folder() -> PathBuf {
    let package = Path::new(env!("CARGO_MANIFEST_DIR"));
    match env::var_os(FOLDER_VARIABLE) {
        Some(named) if !named.is_empty() => package.join(named),
        _ => package.join("../../target/staticlib"),
    }
}
