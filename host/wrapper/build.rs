//! Links the archive that `rt lib` writes in crates/abi, and takes over the constants of its layout. CISHMOLAQ_ARCHIVE names the archive's
//! folder where it lies elsewhere.

use std::path::{Path, PathBuf};

/// Writes the constants of crates/layout, so that each number of the layout is written down once.
fn write_layout(root: &Path) {
    let source = root.join("crates/layout/src/lib.rt");
    println!("cargo:rerun-if-changed={}", source.display());
    let text = std::fs::read_to_string(&source).unwrap_or_else(|e| panic!("{}: {e}", source.display()));
    let constants: String = text.lines().filter(|line| line.starts_with("pub const ")).map(|line| format!("{line}\n")).collect();
    std::fs::write(PathBuf::from(std::env::var("OUT_DIR").unwrap()).join("layout.rs"), constants).unwrap();
}

fn main() {
    let root = PathBuf::from(std::env::var("CARGO_MANIFEST_DIR").unwrap()).join("../..");
    write_layout(&root);
    println!("cargo:rerun-if-env-changed=CISHMOLAQ_ARCHIVE");
    let folder = match std::env::var("CISHMOLAQ_ARCHIVE") {
        Ok(folder) => PathBuf::from(folder),
        Err(_) => root.join("crates/abi/out"),
    };
    let archive = folder.join("libabi.a");
    println!("cargo:rerun-if-changed={}", archive.display());
    assert!(archive.is_file(), "{} is missing: run `rt lib` in crates/abi first", archive.display());
    println!("cargo:rustc-link-search=native={}", folder.display());
    println!("cargo:rustc-link-lib=static=abi");
}
