//! Files written as a whole, or not at all.

use crate::failure::Failure;
use std::ffi::OsString;
use std::fs;
use std::io;
use std::path::{Path, PathBuf};

/// Writes a file. Where it is a plain file or not there yet, it is written under another name and renamed, so that one
/// that is cut short is never seen; a device is written to as it is.
pub fn save(path: &Path, bytes: &[u8]) -> Result<(), Failure> {
    let is_other = fs::metadata(path).map_or(false, |there| !there.is_file());
    let written = if is_other {
        fs::write(path, bytes)
    } else {
        replace(path, bytes)
    };
    written.map_err(|error| Failure::Write {
        name: path.display().to_string(),
        error,
    })
}

fn replace(path: &Path, bytes: &[u8]) -> io::Result<()> {
    let beside = beside(path);
    let written = fs::write(&beside, bytes).and_then(|()| fs::rename(&beside, path));
    if written.is_err() {
        let _ = fs::remove_file(&beside);
    }
    written
}

/// The name under which a file is written until it is whole.
fn beside(path: &Path) -> PathBuf {
    let mut name: OsString = path.as_os_str().to_owned();
    name.push(format!(".{}.part", std::process::id()));
    PathBuf::from(name)
}
