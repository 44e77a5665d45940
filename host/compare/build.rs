//! Links the archive of the proved crate `probe`, which `tools/archive probe` writes.

use std::path::PathBuf;

fn main() {
    let here =
        PathBuf::from(std::env::var("CARGO_MANIFEST_DIR").expect("cargo names the crate's folder"));
    let arch = std::env::var("CARGO_CFG_TARGET_ARCH").expect("cargo names the processor");
    let folder = here.join(format!("../../target/native/{arch}-unknown-linux-gnu"));
    let archive = folder.join("libprobe.a");
    println!("cargo:rerun-if-changed={}", archive.display());
    assert!(
        archive.exists(),
        "the archive of `probe` is not there: run `tools/archive probe` first"
    );
    println!("cargo:rustc-link-search=native={}", folder.display());
    println!("cargo:rustc-link-lib=static=probe");
}
