//! Links the archive of the proved crate `tollgilt`, which `tools/archive tollgilt` writes for this machine or another one.

use std::path::PathBuf;

fn main() {
    let here =
        PathBuf::from(std::env::var("CARGO_MANIFEST_DIR").expect("cargo names the crate's folder"));
    let target = std::env::var("TARGET").expect("cargo names the target");
    let folder = here.join(format!("../../target/native/{target}"));
    let archive = folder.join("libtollgilt.a");
    println!("cargo:rerun-if-changed={}", archive.display());
    assert!(
        archive.exists(),
        "the archive of `tollgilt` is not there: run `tools/archive tollgilt {target}` first"
    );
    println!("cargo:rustc-link-search=native={}", folder.display());
    println!("cargo:rustc-link-lib=static=tollgilt");
}
