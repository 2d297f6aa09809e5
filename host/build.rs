//! Links the archive that `host/build.sh jelvaksna` writes. It proves and builds nothing itself.
use std::path::Path;

fn main() {
    println!("cargo:rerun-if-changed=build.rs");
    if std::env::var_os("CARGO_FEATURE_ARCHIVE").is_none() {
        return;
    }
    let dir = Path::new(env!("CARGO_MANIFEST_DIR")).join("../target/staticlib");
    let archive = dir.join("libjelvaksna.a");
    println!("cargo:rerun-if-changed={}", archive.display());
    if !archive.exists() {
        eprintln!(
            "error: {} is missing: run `host/build.sh jelvaksna` in the repository first",
            archive.display()
        );
        eprintln!("(without the archive, --no-default-features builds the model alone)");
        std::process::exit(1);
    }
    println!("cargo:rustc-link-search=native={}", dir.display());
    println!("cargo:rustc-link-lib=static=jelvaksna");
}
