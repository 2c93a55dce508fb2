//! The worked jobs: hex text with comment lines.

use calls::hex;
use std::fs;
use std::path::Path;

/// The bytes of every job in a folder, in the order of their names.
pub fn read(folder: &Path) -> Vec<Vec<u8>> {
    let entries = fs::read_dir(folder).expect("the folder of worked jobs cannot be read");
    let mut files: Vec<_> = entries
        .map(|entry| entry.expect("the folder cannot be listed").path())
        .filter(|path| path.extension().is_some_and(|extension| extension == "hex"))
        .collect();
    files.sort();
    assert!(!files.is_empty(), "no worked jobs in the folder");
    files
        .iter()
        .map(|file| {
            let text = fs::read_to_string(file).expect("a worked job cannot be read");
            hex::job(&text).expect("a worked job is no hex")
        })
        .collect()
}
