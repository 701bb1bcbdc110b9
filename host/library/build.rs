//! Says where the proved static library lies, when this crate is built with the feature `linked`.
//!
//! `./build.sh library` writes `target/staticlib/libc_interface.a` at the top of the project;
//! PDEVS_LIBRARY_DIR names another folder that holds the archive.

use std::path::PathBuf;

fn main() {
    println!("cargo:rerun-if-env-changed=PDEVS_LIBRARY_DIR");
    if std::env::var_os("CARGO_FEATURE_LINKED").is_none() {
        return;
    }
    let package = PathBuf::from(std::env::var_os("CARGO_MANIFEST_DIR").expect("set by cargo"));
    let built = package.join("../../target/staticlib");
    let folder = std::env::var_os("PDEVS_LIBRARY_DIR").map(PathBuf::from).unwrap_or(built);
    println!("cargo:rerun-if-changed={}", folder.join("libc_interface.a").display());
    println!("cargo:rustc-link-search=native={}", folder.display());
    println!("cargo:rustc-link-lib=static=c_interface");
}
