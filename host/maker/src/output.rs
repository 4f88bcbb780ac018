//! Stores a file: whole or not at all.

use crate::text::{of_file, plain};
use std::fs::{self, File, OpenOptions, Permissions};
use std::io::{self, ErrorKind, Write};
use std::path::{Path, PathBuf};

/// How many names are tried for the file while it is being written.
const MAX_TRIES: u32 = 100;

/// A new file beside the output. A file that is there already, as from a run that was ended, is left alone.
fn create_beside(out: &Path) -> io::Result<(PathBuf, File)> {
    let mut tries = 0;
    loop {
        let name = format!(".luffinarc-{}-{tries}.part", std::process::id());
        let part = out.with_file_name(name);
        match OpenOptions::new().write(true).create_new(true).open(&part) {
            Err(error) if error.kind() == ErrorKind::AlreadyExists && tries < MAX_TRIES => {
                tries += 1;
            }
            opened => return opened.map(|file| (part, file)),
        }
    }
}

/// Writes a file beside the output, with the permissions of the one that it replaces, and moves it there.
fn write_and_move(out: &Path, bytes: &[u8]) -> io::Result<()> {
    let before = fs::metadata(out).ok().map(|before| before.permissions());
    if before.as_ref().map_or(false, Permissions::readonly) {
        return Err(ErrorKind::PermissionDenied.into());
    }
    let (part, mut file) = create_beside(out)?;
    let allowed = before.map_or(Ok(()), |before| file.set_permissions(before));
    let written = allowed.and_then(|()| file.write_all(bytes)).and_then(|()| file.sync_all());
    written.and_then(|()| fs::rename(&part, out)).map_err(|error| {
        let _ = fs::remove_file(&part);
        error
    })
}

/// The file that is replaced: where the name is a symbolic link, the one that it leads to.
fn target(out: &Path) -> Result<PathBuf, String> {
    match fs::metadata(out) {
        Ok(kind) if !kind.is_file() => Err(of_file(out, "not a plain file")),
        Ok(_) => fs::canonicalize(out).map_err(|error| of_file(out, plain(&error))),
        Err(_) if fs::symlink_metadata(out).is_ok() => {
            Err(of_file(out, "a symbolic link that leads to no file"))
        }
        Err(_) => Ok(out.to_path_buf()),
    }
}

/// Stores bytes as a file: whole or not at all. A file that was there is kept where this fails.
///
/// # Errors
///
/// What went wrong, with the file's name.
pub fn store(out: &Path, bytes: &[u8]) -> Result<(), String> {
    let file = target(out)?;
    write_and_move(&file, bytes).map_err(|error| of_file(out, plain(&error)))
}
