//! Links the archives of the proved crates `probe` and `tollgilt`, and the XML libraries by way of peers.cpp.

use std::path::PathBuf;
use std::process::Command;

fn said(program: &str, words: &[&str]) -> String {
    let output = Command::new(program).args(words).output();
    let output = output.unwrap_or_else(|error| panic!("{program}: {error}"));
    assert!(output.status.success(), "{program} fails: {output:?}");
    String::from_utf8(output.stdout).expect("it prints text")
}

fn main() {
    let here = PathBuf::from(env("CARGO_MANIFEST_DIR"));
    let made = env("OUT_DIR");
    let folder = here.join(format!("../../target/native/{}", env("TARGET")));
    for name in ["probe", "tollgilt"] {
        let archive = folder.join(format!("lib{name}.a"));
        println!("cargo:rerun-if-changed={}", archive.display());
        assert!(
            archive.exists(),
            "the archive of `{name}` is not there: run `tools/archive {name}` first"
        );
        println!("cargo:rustc-link-lib=static={name}");
    }
    println!("cargo:rustc-link-search=native={}", folder.display());

    println!("cargo:rerun-if-changed=peers.cpp");
    let flags = said("pkg-config", &["--cflags", "libxml-2.0"]);
    let (object, archive) = (format!("{made}/peers.o"), format!("{made}/libpeers.a"));
    let mut words = vec![
        "-std=c++17",
        "-O3",
        "-Wall",
        "-Wextra",
        "-c",
        "peers.cpp",
        "-o",
        &object,
    ];
    words.extend(flags.split_whitespace());
    said("c++", &words);
    said("ar", &["rcs", &archive, &object]);
    println!("cargo:rustc-link-search=native={made}");
    println!("cargo:rustc-link-lib=static=peers");
    for library in ["pugixml", "expat", "xml2", "stdc++"] {
        println!("cargo:rustc-link-lib=dylib={library}");
    }
}

fn env(name: &str) -> String {
    std::env::var(name).unwrap_or_else(|_| panic!("cargo sets {name}"))
}
