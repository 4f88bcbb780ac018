//! Files to read: images and texts.

use crate::streams::readable;
use crate::text::visible;
use luffinarc::{MAX_IMAGE, MAX_TEXT};
use luffinarc_maker::plain;
use std::ffi::{OsStr, OsString};
use std::fs::File;
use std::io::{self, Read};

/// A file that was read, or as much of it as tells that it is too long.
pub struct Input {
    /// Its name, with U+FFFD for what is not UTF-8.
    pub name: String,
    /// Its bytes; one more than the limit where it has more.
    pub bytes: Vec<u8>,
}

impl Input {
    /// The name as it is shown.
    pub fn shown(&self) -> String {
        visible(&self.name)
    }
}

/// The name of a file to read; `-` is standard input.
fn read_name(name: &OsStr) -> String {
    if name == "-" {
        "<stdin>".to_string()
    } else {
        name.to_string_lossy().into_owned()
    }
}

/// The value of an option is the name of a file or a folder, not standard input or output.
pub fn is_file_name(option: &str, name: &OsStr) -> Result<(), String> {
    if name.is_empty() || name == "-" {
        Err(format!("{option}: a name is needed"))
    } else {
        Ok(())
    }
}

/// Reads at most one byte more than the limit, so that a file of any length ends.
fn read(name: &OsStr, limit: usize) -> Result<Input, String> {
    if name.is_empty() {
        return Err("an empty name is no file".to_string());
    }
    let read_name = read_name(name);
    let most = limit as u64 + 1;
    let mut bytes = Vec::new();
    let result = if name == "-" {
        readable().and_then(|()| io::stdin().lock().take(most).read_to_end(&mut bytes))
    } else {
        File::open(name).and_then(|file| file.take(most).read_to_end(&mut bytes))
    };
    match result {
        Ok(_) => Ok(Input { name: read_name, bytes }),
        Err(error) => Err(format!("{read_name}: {}", plain(&error))),
    }
}

/// Reads an image.
pub fn read_image(name: &OsStr) -> Result<Input, String> {
    read(name, MAX_IMAGE)
}

/// Reads a text.
pub fn read_text(name: &OsStr) -> Result<Input, String> {
    read(name, MAX_TEXT)
}

/// The files named, or standard input where none is.
pub fn or_stdin(names: Vec<OsString>) -> Vec<OsString> {
    if names.is_empty() {
        vec!["-".into()]
    } else {
        names
    }
}

/// Standard input is read once: it is not the image and a text, nor two texts.
pub fn read_once(image: &OsStr, files: &[OsString]) -> Result<(), String> {
    let texts = files.iter().filter(|&name| name == "-").count();
    match (image == "-", texts) {
        (true, 1..) => Err("standard input can't be the image and a text".to_string()),
        (false, 2..) => Err("standard input is named twice".to_string()),
        _ => Ok(()),
    }
}
