//! Links `counts`, and no other program, to its archive, which `tools/build` writes beside that of
//! the library.
use std::env;
use std::path::PathBuf;

fn main() {
    let dir = env::var_os("DEP_JOISTDENIM_DIR").expect("the wrapper's build script tells it");
    let archive = PathBuf::from(dir).join("libcounts.a");
    println!("cargo::rerun-if-changed={}", archive.display());
    if !archive.is_file() {
        // No error, as the other programs of this package do without.
        println!(
            "cargo::warning=there is no {}, which the program counts needs: make it with \
             'tools/build counts'",
            archive.display()
        );
    }
    println!("cargo::rustc-link-arg-bin=counts={}", archive.display());
}
