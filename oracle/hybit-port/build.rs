//! Links the port: libhybit_matrix.a in RATTLE_LIBS, by default in
//! target/staticlib. A relative path starts at the project's top folder.

use std::env;
use std::path::Path;

fn main() {
    let package = env::var_os("CARGO_MANIFEST_DIR").expect("cargo names the package");
    let libraries = env::var_os("RATTLE_LIBS").unwrap_or("target/staticlib".into());
    let folder = Path::new(&package).join("../..").join(libraries);
    let archive = folder.join("libhybit_matrix.a");
    println!("cargo::rerun-if-env-changed=RATTLE_LIBS");
    println!("cargo::rerun-if-changed={}", archive.display());
    if !archive.exists() {
        println!(
            "cargo::error={} is missing: build it (tools/staticlib hybit_matrix), or set RATTLE_LIBS",
            archive.display()
        );
    }
    println!("cargo::rustc-link-search=native={}", folder.display());
    println!("cargo::rustc-link-lib=static=hybit_matrix");
}
