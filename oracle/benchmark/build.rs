//! Links librepeated.a, which stands beside the port: the work of a call many
//! times after one check.

use std::env;
use std::path::Path;

fn main() {
    let package = env::var_os("CARGO_MANIFEST_DIR").expect("cargo names the package");
    let libraries = env::var_os("RATTLE_LIBS").unwrap_or("target/staticlib".into());
    let folder = Path::new(&package).join("../..").join(libraries);
    let archive = folder.join("librepeated.a");
    println!("cargo::rerun-if-env-changed=RATTLE_LIBS");
    println!("cargo::rerun-if-changed={}", archive.display());
    if !archive.exists() {
        println!(
            "cargo::error={} is missing: build it (tools/staticlib repeated), or set RATTLE_LIBS",
            archive.display()
        );
    }
    println!("cargo::rustc-link-search=native={}", folder.display());
    println!("cargo::rustc-link-lib=static=repeated");
    // It may hold the port's own functions once more, and then the first of
    // each two alike is taken.
    println!("cargo::rustc-link-arg-bins=-Wl,--allow-multiple-definition");
}
