//! Reads the assigned code points, from the first file that a folder has of four.

use crate::category::category;
use crate::properties::PropertyFile;
use crate::sources::{ASSIGNED, CATEGORIES, UNICODE_DATA};
use crate::span::Span;
use crate::text::of_file;
use crate::unicode_data::unicode_data;
use luffinarc::Version;
use std::path::Path;

/// The code points of every General_Category but Cn. Every code point must have one.
fn general_category(file: &Path, version: Version) -> Result<Vec<Span>, String> {
    let read = PropertyFile::read(file, version)?;
    let mut all = Vec::new();
    for name in read.names() {
        category(name).map_err(|why| of_file(file, why))?;
        all.extend(read.spans(name)?.iter().map(|&span| (span, name != "Cn")));
    }
    all.sort_unstable();
    let mut next = 0;
    for &((first, last), _) in &all {
        if first != next {
            let how = if first > next { "no" } else { "more than one" };
            let why = format!("U+{:04X} has {how} General_Category", first.min(next));
            return Err(of_file(file, why));
        }
        next = last + 1;
    }
    if next != 0x110000 {
        return Err(of_file(file, format!("U+{next:04X} has no General_Category")));
    }
    Ok(all.into_iter().filter(|&(_, assigned)| assigned).map(|(span, _)| span).collect())
}

/// The assigned code points of a folder.
pub fn read(folder: &Path, version: Version, core: &PropertyFile) -> Result<Vec<Span>, String> {
    let there = |name| {
        let file = folder.join(name);
        file.symlink_metadata().is_ok().then_some(file)
    };
    if let Some(file) = there(UNICODE_DATA) {
        return unicode_data(&file, version, core);
    }
    for name in CATEGORIES {
        if let Some(file) = there(name) {
            return general_category(&file, version);
        }
    }
    if let Some(file) = there(ASSIGNED) {
        return Ok(PropertyFile::read(&file, version)?.spans("Assigned")?.to_vec());
    }
    let names = format!("{UNICODE_DATA}, {} or {ASSIGNED}", CATEGORIES[0]);
    Err(of_file(folder, format!("holds none of {names}")))
}
