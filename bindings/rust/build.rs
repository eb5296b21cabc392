//! Finds the static library: in the folder that STAGECHECK_LIB_DIR names, or where `tools/build library` puts it.

use std::path::{Path, PathBuf};

/// Its name in the repository, and where it is installed.
const NAMES: [&str; 2] = ["stagecheck_c", "stagecheck"];

fn main() {
    println!("cargo::rerun-if-env-changed=STAGECHECK_LIB_DIR");
    let folder = match std::env::var_os("STAGECHECK_LIB_DIR") {
        Some(folder) => PathBuf::from(folder),
        None => Path::new(env!("CARGO_MANIFEST_DIR")).join("../../target/staticlib"),
    };
    for name in NAMES {
        let archive = folder.join(format!("lib{name}.a"));
        println!("cargo::rerun-if-changed={}", archive.display());
        if archive.exists() {
            println!("cargo::rustc-link-search=native={}", folder.display());
            println!("cargo::rustc-link-lib=static={name}");
            return;
        }
    }
    let way = "set STAGECHECK_LIB_DIR to PREFIX/lib, or run `tools/build library`";
    println!("cargo::error=no libstagecheck.a and no libstagecheck_c.a in {}: {way}", folder.display());
}
