//! Reads the files of the Unicode Character Database in a folder.

use crate::assigned;
use crate::properties::PropertyFile;
use crate::sources::{CORE, PROPERTIES};
use crate::span::Span;
use crate::text::{of_file, plain};
use luffinarc::Version;
use std::fs;
use std::path::Path;

/// The sets that an image is made from.
pub struct Sets {
    pub xid_start: Vec<Span>,
    pub xid_continue: Vec<Span>,
    pub syntax: Vec<Span>,
    pub white: Vec<Span>,
    pub assigned: Vec<Span>,
}

/// All sets from the files of a folder, which are of this version.
pub fn read_folder(folder: &Path, version: Version) -> Result<Sets, String> {
    let kind = fs::metadata(folder).map_err(|error| of_file(folder, plain(&error)))?;
    if !kind.is_dir() {
        return Err(of_file(folder, "not a folder"));
    }
    let core = PropertyFile::read(&folder.join(CORE), version)?;
    let prop = PropertyFile::read(&folder.join(PROPERTIES), version)?;
    Ok(Sets {
        xid_start: core.spans("XID_Start")?.to_vec(),
        xid_continue: core.spans("XID_Continue")?.to_vec(),
        syntax: prop.spans("Pattern_Syntax")?.to_vec(),
        white: prop.spans("Pattern_White_Space")?.to_vec(),
        assigned: assigned::read(folder, version, &core)?,
    })
}
