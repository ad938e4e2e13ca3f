//! Files are written whole or not at all: what was there stays where writing fails, as on a full disk.

use std::fs;
use std::path::{Path, PathBuf};

/// Where a file is written before it takes its name.
fn beside(file: &Path) -> PathBuf {
    let mut name = file.file_name().unwrap_or_default().to_os_string();
    name.push(".new");
    file.with_file_name(name)
}

/// Makes the folder of a file where it is missing.
pub fn make_folder(file: &Path) -> Result<(), String> {
    match file.parent() {
        Some(folder) if folder != Path::new("") => {
            fs::create_dir_all(folder).map_err(|error| format!("{} cannot be made: {error}", folder.display()))
        }
        _ => Ok(()),
    }
}

/// Writes a file, with its folder.
pub fn write_file(file: &Path, bytes: &[u8]) -> Result<(), String> {
    make_folder(file)?;
    let told = |error: std::io::Error| format!("{} cannot be written: {error}", file.display());
    // a device or a pipe is written to, and a link leads to the file that is meant
    let there = fs::canonicalize(file).unwrap_or_else(|_| file.to_path_buf());
    if fs::metadata(&there).is_ok_and(|what| !what.is_file()) {
        return fs::write(&there, bytes).map_err(told);
    }
    let new = beside(&there);
    fs::write(&new, bytes).and_then(|()| fs::rename(&new, &there)).map_err(|error| {
        // best effort: what could not be written whole is of no use
        fs::remove_file(&new).ok();
        told(error)
    })
}
