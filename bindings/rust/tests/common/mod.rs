//! The repository's listings.

use std::path::{Path, PathBuf};

pub fn repository() -> PathBuf {
    Path::new(env!("CARGO_MANIFEST_DIR")).join("../..")
}

/// The listings of a folder, each with its stored text.
pub fn listings(folder: &str, text_extension: &str) -> Vec<(Vec<u8>, String)> {
    let names = std::fs::read_dir(repository().join(folder)).expect(folder).map(|entry| entry.expect(folder).path());
    let listings: Vec<PathBuf> = names.filter(|name| name.extension().is_some_and(|end| end == "listing")).collect();
    assert!(!listings.is_empty(), "no listing in {folder}");
    let read = |name: PathBuf| {
        let text = std::fs::read_to_string(name.with_extension(text_extension)).expect("its text");
        (std::fs::read(name).expect("a listing"), text)
    };
    listings.into_iter().map(read).collect()
}
