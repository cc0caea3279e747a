//! Finds the library for C: in the folder that `RUDEKPI_LIB_DIR` names, or in `release/` next to this
//! package.

use std::path::PathBuf;
use std::{env, process};

fn main() {
    println!("cargo:rerun-if-env-changed=RUDEKPI_LIB_DIR");
    let folder = folder();
    if !folder.join("librudekpi.a").is_file() {
        eprintln!(
            "rudekpi: no librudekpi.a in {}: set RUDEKPI_LIB_DIR to its folder",
            folder.display()
        );
        process::exit(1);
    }
    println!("cargo:rerun-if-changed={}", folder.join("librudekpi.a").display());
    println!("cargo:rustc-link-search=native={}", folder.display());
    println!("cargo:rustc-link-lib=static=rudekpi");
}

/// The library's folder for the target's processor.
fn folder() -> PathBuf {
    if let Some(named) = env::var_os("RUDEKPI_LIB_DIR") {
        return PathBuf::from(named);
    }
    let release = PathBuf::from(env::var_os("CARGO_MANIFEST_DIR").unwrap_or_default()).join("../release");
    match env::var("CARGO_CFG_TARGET_ARCH").as_deref() {
        Ok("aarch64") => release.join("aarch64"),
        Ok("riscv64") => release.join("riscv64"),
        _ => release,
    }
}
