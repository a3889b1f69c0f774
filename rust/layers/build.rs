//! Links target/staticlib/liblayers.a of the repository, which
//! `tools/archives layers` writes.

use std::env;
use std::path::Path;

fn main() {
    let package = env::var("CARGO_MANIFEST_DIR").expect("cargo sets CARGO_MANIFEST_DIR");
    let folder = Path::new(&package).join("../../target/staticlib");
    let archive = folder.join("liblayers.a");
    println!("cargo::rerun-if-changed={}", archive.display());
    if archive.is_file() {
        println!("cargo::rustc-link-search=native={}", folder.display());
        println!("cargo::rustc-link-lib=static=layers");
    } else {
        println!(
            "cargo::error={} is missing: run tools/archives layers first",
            archive.display()
        );
    }
}
