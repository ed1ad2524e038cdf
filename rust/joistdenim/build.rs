//! Tells cargo where the archive is: in JOISTDENIM_LIB_DIR, else where `tools/build` writes it.
//! Where it is missing, the linker would say so in its own words and not how to make it.
use std::env;
use std::path::{absolute, Path, PathBuf};

const ARCHIVE: &str = "libjoistdenim.a";

fn main() {
    let dir = env::var_os("JOISTDENIM_LIB_DIR").map_or_else(beside, PathBuf::from);
    // A relative folder counts from this one, here and for the linker.
    let dir = absolute(&dir).unwrap_or(dir);
    let archive = dir.join(ARCHIVE);
    println!("cargo::rerun-if-env-changed=JOISTDENIM_LIB_DIR");
    println!("cargo::rerun-if-changed={}", archive.display());
    if !archive.is_file() {
        println!(
            "cargo::error=there is no {}: make it with 'tools/build joistdenim', or set \
             JOISTDENIM_LIB_DIR to the folder that has {ARCHIVE}",
            archive.display()
        );
    }
    // For the build script of bench, which has an archive in the same folder.
    println!("cargo::metadata=dir={}", dir.display());
    println!("cargo::rustc-link-search=native={}", dir.display());
    println!("cargo::rustc-link-lib=static=joistdenim");
}

/// In the repository, which has this package in `rust`.
fn beside() -> PathBuf {
    let package = Path::new(env!("CARGO_MANIFEST_DIR"));
    let repository = package.ancestors().nth(2).unwrap_or(package);
    repository.join("target/staticlib")
}
