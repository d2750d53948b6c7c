//! Where the eight Rust files stand. The build scripts of hybit-original and
//! hybit-open share this.

use std::env;
use std::path::{Path, PathBuf};

pub const FILES: [&str; 8] = [
    "csr32",
    "dof_layout",
    "dual_topology",
    "field_region",
    "mask",
    "prepared_field_region",
    "region",
    "topology",
];

/// The folder crates/hybit-matrix/src below HYBIT_SRC, by default below
/// ../shared/docs/src. A relative path starts at the project's top folder.
pub fn folder() -> PathBuf {
    let package = env::var_os("CARGO_MANIFEST_DIR").expect("cargo names the package");
    let source = env::var_os("HYBIT_SRC").unwrap_or("../shared/docs/src".into());
    let folder = Path::new(&package)
        .join("../..")
        .join(source)
        .join("crates/hybit-matrix/src");
    println!("cargo::rerun-if-env-changed=HYBIT_SRC");
    for name in FILES {
        println!(
            "cargo::rerun-if-changed={}",
            folder.join(name).with_extension("rs").display()
        );
    }
    match folder.canonicalize() {
        Ok(found) => found,
        Err(error) => panic!("{}: {error}; set HYBIT_SRC", folder.display()),
    }
}

/// Writes root.rs, which names the files in `folder` as modules.
pub fn write_root(folder: &Path) {
    let mut root = String::new();
    for name in FILES {
        let path = folder.join(name).with_extension("rs");
        root.push_str(&format!(
            "#[path = {path:?}]\nmod {name};\npub use {name}::*;\n"
        ));
    }
    std::fs::write(out_folder().join("root.rs"), root).expect("root.rs can be written");
}

pub fn out_folder() -> PathBuf {
    env::var_os("OUT_DIR")
        .expect("cargo names the output folder")
        .into()
}
