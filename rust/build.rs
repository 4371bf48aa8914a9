//! Links libwhitebeamish.a from the folder that WHITEBEAMISH_LIB names, or else from ../target/staticlib,
//! where `tools/build whitebeamish` writes it.

use std::env;
use std::path::PathBuf;
use std::process::exit;

fn main() {
    println!("cargo:rerun-if-env-changed=WHITEBEAMISH_LIB");
    let target = ["ARCH", "OS", "POINTER_WIDTH"].map(|name| variable(&format!("CARGO_CFG_TARGET_{name}")));
    if target != ["x86_64", "linux", "64"] {
        let arm = "docs/ARM.md in the repository says how to build and run it on Arm";
        stop(&format!("the archive has x86-64 Linux code and cannot be linked for {}; {arm}", variable("TARGET")));
    }
    let folder = match env::var_os("WHITEBEAMISH_LIB") {
        Some(folder) => PathBuf::from(folder),
        None => PathBuf::from(variable("CARGO_MANIFEST_DIR")).join("../target/staticlib"),
    };
    let archive = folder.join("libwhitebeamish.a");
    if !archive.is_file() {
        let make = "run `tools/build whitebeamish` in the repository, or set WHITEBEAMISH_LIB to the archive's folder";
        stop(&format!("there is no {}: {make}", archive.display()));
    }
    println!("cargo:rerun-if-changed={}", archive.display());
    println!("cargo:rustc-link-search=native={}", folder.display());
    println!("cargo:rustc-link-lib=static=whitebeamish");
}

fn variable(name: &str) -> String {
    env::var(name).unwrap_or_default()
}

fn stop(cause: &str) -> ! {
    eprintln!("whitebeamish: {cause}");
    exit(1)
}
