//! The files of host/vectors: inputs with the answers that they must get.

use std::path::PathBuf;

fn folder() -> PathBuf {
    PathBuf::from(env!("CARGO_MANIFEST_DIR")).join("../vectors")
}

/// The numbers N of all files `N.KIND`.
pub fn numbers(kind: &str) -> Vec<u64> {
    let number = |name: &str| name.strip_suffix(kind)?.strip_suffix('.')?.parse().ok();
    let files = std::fs::read_dir(folder()).expect("the folder of the vectors");
    let mut all: Vec<u64> = files.filter_map(|file| number(file.unwrap().file_name().to_str()?)).collect();
    assert!(!all.is_empty(), "there is no file N.{kind}");
    all.sort_unstable();
    all
}

/// The file `N.KIND`, if there is one.
pub fn bytes_if_any(n: u64, kind: &str) -> Option<Vec<u8>> {
    std::fs::read(folder().join(format!("{n}.{kind}"))).ok()
}

/// The file `N.KIND`.
pub fn bytes(n: u64, kind: &str) -> Vec<u8> {
    bytes_if_any(n, kind).unwrap_or_else(|| panic!("{n}.{kind} is missing"))
}

/// The lines of the file `N.KIND`.
pub fn lines(n: u64, kind: &str) -> Vec<String> {
    String::from_utf8(bytes(n, kind)).expect("a text").lines().map(String::from).collect()
}
