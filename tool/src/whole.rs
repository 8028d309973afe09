//! A file written whole or not at all.

use std::fs::{self, File, OpenOptions};
use std::io::{self, Write};
use std::path::{Path, PathBuf};
use std::process;

/// Puts `bytes` at `path`: a device or a pipe is written to, a file is replaced in one step.
pub fn write(path: &Path, bytes: &[u8]) -> io::Result<()> {
    match fs::metadata(path) {
        Err(error) if error.kind() == io::ErrorKind::NotFound => replace(path, bytes),
        Err(error) => Err(error),
        Ok(there) => {
            // Opened in both cases: a file that may not be written is not replaced either.
            let mut target = OpenOptions::new().write(true).open(path)?;
            if there.is_file() {
                replace(&fs::canonicalize(path)?, bytes)
            } else {
                target.write_all(bytes)
            }
        }
    }
}

/// Writes a file beside `path` and renames it; on any failure nothing of it is left.
fn replace(path: &Path, bytes: &[u8]) -> io::Result<()> {
    let (beside, mut file) = create_beside(path)?;
    let done = file.write_all(bytes).and_then(|()| file.sync_all()).and_then(|()| fs::rename(&beside, path));
    if done.is_err() {
        // The first failure is the one to tell.
        let _ = fs::remove_file(&beside);
    }
    done
}

/// A new file in the same folder, since a rename does not cross file systems.
fn create_beside(path: &Path) -> io::Result<(PathBuf, File)> {
    let folder = path.parent().unwrap_or(Path::new(""));
    let mut number = 0;
    loop {
        let beside = folder.join(format!(".windnadel-{}-{number}", process::id()));
        match OpenOptions::new().write(true).create_new(true).open(&beside) {
            Err(error) if error.kind() == io::ErrorKind::AlreadyExists && number < 100 => number += 1,
            opened => return opened.map(|file| (beside, file)),
        }
    }
}
