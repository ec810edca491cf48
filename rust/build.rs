//! Links the archives: the folder of libmivtolgya.a and libmivtolgya_bridge.a is MIVTOLGYA_LIB, or the repository's target/staticlib.
use std::env;
use std::path::PathBuf;

fn main() {
    println!("cargo:rerun-if-env-changed=MIVTOLGYA_LIB");
    let folder = env::var("MIVTOLGYA_LIB").map(PathBuf::from).unwrap_or_else(|_| {
        PathBuf::from(env::var("CARGO_MANIFEST_DIR").unwrap()).join("../target/staticlib")
    });
    println!("cargo:rustc-link-search=native={}", folder.display());
    for name in ["mivtolgya", "mivtolgya_bridge"] {
        let archive = folder.join(format!("lib{name}.a"));
        println!("cargo:rerun-if-changed={}", archive.display());
        if !archive.exists() {
            println!("cargo:warning={} is missing: run `tools/archives.sh {name}`, or set MIVTOLGYA_LIB to its folder", archive.display());
        }
        println!("cargo:rustc-link-lib=static={name}");
    }
}
