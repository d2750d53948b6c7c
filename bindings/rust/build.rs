//! Links libhybit_matrix.a. HYBIT_MATRIX_ARCHIVE names one that is built; without it the archive is built here, by
//! tools/staticlib in the project's top folder, which proves it first.

use std::env;
use std::fs;
use std::path::{Path, PathBuf};
use std::process::Command;

fn main() {
    println!("cargo::rerun-if-env-changed=HYBIT_MATRIX_ARCHIVE");
    let archive = match env::var_os("HYBIT_MATRIX_ARCHIVE") {
        Some(named) => {
            println!("cargo::rerun-if-changed={}", Path::new(&named).display());
            PathBuf::from(named)
        }
        None => built(),
    };
    match archive.canonicalize() {
        Ok(found) if found.ends_with("libhybit_matrix.a") => {
            let folder = found.parent().expect("a file stands in a folder");
            println!("cargo::rustc-link-search=native={}", folder.display());
            println!("cargo::rustc-link-lib=static=hybit_matrix");
        }
        Ok(found) => println!(
            "cargo::error={} is not called libhybit_matrix.a",
            found.display()
        ),
        Err(error) => println!("cargo::error={}: {error}", archive.display()),
    }
}

/// The archive, proved and built by the toolchain.
fn built() -> PathBuf {
    let package = env::var_os("CARGO_MANIFEST_DIR").expect("cargo names the package");
    let top = Path::new(&package).join("../..");
    watch(&top);
    let command = "tools/staticlib hybit_matrix";
    match Command::new(top.join("tools/staticlib"))
        .arg("hybit_matrix")
        .status()
    {
        Ok(status) if status.success() => {}
        Ok(status) => println!("cargo::error={command}: {status}"),
        Err(error) => println!(
            "cargo::error={command}: {error}; HYBIT_MATRIX_ARCHIVE can name a built archive"
        ),
    }
    top.join("target/staticlib/libhybit_matrix.a")
}

/// The sources of the crates, without what the toolchain writes beside them.
fn watch(top: &Path) {
    println!(
        "cargo::rerun-if-changed={}",
        top.join("crates.txt").display()
    );
    let Ok(crates) = fs::read_dir(top.join("crates")) else {
        return;
    };
    for package in crates.flatten() {
        for part in ["src", "specs", "proofs"] {
            let folder = package.path().join(part);
            if folder.is_dir() {
                println!("cargo::rerun-if-changed={}", folder.display());
            }
        }
    }
}
