//! The files that an image is made from, by their names.

use crate::Options;
use std::fs;
use std::path::{Path, PathBuf};

pub const CORE: &str = "DerivedCoreProperties.txt";
pub const PROPERTIES: &str = "PropList.txt";
pub const UNICODE_DATA: &str = "UnicodeData.txt";
pub const CATEGORIES: [&str; 2] =
    ["DerivedGeneralCategory.txt", "extracted/DerivedGeneralCategory.txt"];
pub const ASSIGNED: &str = "Assigned.txt";

/// Where a file is, or would be, with no symbolic link on the way.
fn place(file: &Path) -> Option<PathBuf> {
    if let Ok(place) = fs::canonicalize(file) {
        return Some(place);
    }
    let folder = match file.parent()? {
        here if here.as_os_str().is_empty() => Path::new("."),
        folder => folder,
    };
    Some(fs::canonicalize(folder).ok()?.join(file.file_name()?))
}

/// The output is neither the profile nor has the name of a source in the folder. Nothing is read.
///
/// # Errors
///
/// What is wrong, in one line.
pub fn check_out(options: &Options) -> Result<(), String> {
    let out = place(&options.out);
    let names = [CORE, PROPERTIES, UNICODE_DATA, CATEGORIES[0], CATEGORIES[1], ASSIGNED];
    let mut sources = names.into_iter().map(|name| options.folder.join(name));
    let is_out = |file: &Path| out.is_some() && place(file) == out;
    if options.profile.as_deref().map_or(false, is_out) || sources.any(|file| is_out(&file)) {
        return Err(format!("{} is a file that an image is made from", options.out.display()));
    }
    Ok(())
}
