//! Links the proved static libraries, which `tools/library` builds.

use std::path::Path;

fn main() {
    let here = std::env::var("CARGO_MANIFEST_DIR").expect("cargo sets CARGO_MANIFEST_DIR");
    let folder = Path::new(&here).join("../../target/staticlib");
    println!("cargo:rustc-link-search=native={}", folder.display());
    for name in ["sporhulma", "family", "scribe"] {
        let library = folder.join(format!("lib{name}.a"));
        println!("cargo:rerun-if-changed={}", library.display());
        if !library.exists() {
            eprintln!(
                "{} is not there: run tools/library first",
                library.display()
            );
            std::process::exit(1);
        }
        println!("cargo:rustc-link-lib=static={name}");
    }
}
