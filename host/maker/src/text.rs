//! Reads text files, and shows names and lines in errors. Names and lines are shown as they are, whatever their characters.

use std::fs::File;
use std::io::{self, Read};
use std::path::Path;

/// More bytes than any file of the database has.
const MAX_FILE: u64 = 64 * 1024 * 1024;

/// The most characters of a line that an error shows.
const MAX_SHOWN: usize = 60;

/// A part of a file as an error shows it; a long one is cut.
pub fn shown(text: &str) -> String {
    let cut = if text.chars().nth(MAX_SHOWN).is_some() { ".." } else { "" };
    text.chars().take(MAX_SHOWN).collect::<String>() + cut
}

/// An error that begins with the file's name.
pub fn of_file(file: &Path, why: impl AsRef<str>) -> String {
    format!("{}: {}", file.display(), why.as_ref())
}

/// An error that begins with the file's name and the line, which is counted from 1.
pub fn of_line(file: &Path, line: usize, why: impl AsRef<str>) -> String {
    of_file(file, format!("line {line}: {}", why.as_ref()))
}

/// The error in words, without the number that Rust puts after them.
pub fn plain(error: &io::Error) -> String {
    let shown = error.to_string();
    shown.split(" (os error").next().unwrap_or(&shown).to_string()
}

/// The file's text.
pub fn read_text(file: &Path) -> Result<String, String> {
    let mut bytes = Vec::new();
    let read = File::open(file).and_then(|open| open.take(MAX_FILE + 1).read_to_end(&mut bytes));
    read.map_err(|error| of_file(file, plain(&error)))?;
    if bytes.len() as u64 > MAX_FILE {
        return Err(of_file(file, "has more than 64 MiB"));
    }
    String::from_utf8(bytes).map_err(|error| {
        let good = &error.as_bytes()[..error.utf8_error().valid_up_to()];
        let line = good.iter().filter(|&&b| b == b'\n').count() + 1;
        of_line(file, line, "not UTF-8")
    })
}

/// The file's text, which is not empty.
pub fn read_source(file: &Path) -> Result<String, String> {
    let text = read_text(file)?;
    if text.trim().is_empty() {
        return Err(of_file(file, "is empty"));
    }
    Ok(text)
}
