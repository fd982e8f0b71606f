//! The examples of the project that have a stored sheet.

use std::fs;
use std::path::{Path, PathBuf};

pub fn examples() -> PathBuf {
    Path::new(env!("CARGO_MANIFEST_DIR")).join("../examples")
}

/// The plain sheets of all of them.
pub fn texts() -> Vec<PathBuf> {
    let texts = with_ending(&examples(), "txt");
    assert!(texts.len() >= 3, "the stored sheets are found");
    texts
}

/// The files of a folder whose name has that ending.
pub fn with_ending(folder: &Path, ending: &str) -> Vec<PathBuf> {
    let files = fs::read_dir(folder).expect("it is a folder");
    let paths = files.map(|file| file.expect("it is listed").path());
    paths
        .filter(|path| path.extension().map_or(false, |kind| kind == ending))
        .collect()
}
