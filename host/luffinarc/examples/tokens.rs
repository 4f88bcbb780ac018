//! Lists the tokens of a text file under an image file: `tokens IMAGE TEXT`.
//!
//! It prints a line for each token: its kind, its first byte, one past its last byte and its line in the text. Exit
//! status: 0 the tokens were listed; 1 the image or the text is refused; 2 wrong use, or a file can't be read or written.

use luffinarc::ImageBuf;
use std::fmt::Display;
use std::io::{self, Write};
use std::path::{Path, PathBuf};
use std::process::ExitCode;
use std::{env, fs};

const REFUSED: u8 = 1;
const FAILED: u8 = 2;

/// What is told of an error, and the exit status.
type Failure = (String, u8);

/// An error of a file, with the file's name.
fn of<E: Display>(file: &Path, status: u8) -> impl Fn(E) -> Failure + '_ {
    move |error| (format!("tokens: {}: {error}", file.display()), status)
}

fn list(image_file: &Path, text_file: &Path) -> Result<(), Failure> {
    let bytes = fs::read(image_file).map_err(of(image_file, FAILED))?;
    let text = fs::read(text_file).map_err(of(text_file, FAILED))?;
    let image = ImageBuf::check(bytes).map_err(of(image_file, REFUSED))?;
    let mut lines = String::new();
    for token in image.as_image().tokens(&text).map_err(of(text_file, REFUSED))? {
        let (start, end) = (token.range.start, token.range.end);
        lines += &format!("{} {start} {end} {}\n", token.kind, token.line);
    }
    io::stdout().write_all(lines.as_bytes()).map_err(of(Path::new("standard output"), FAILED))
}

fn main() -> ExitCode {
    let files: Vec<PathBuf> = env::args_os().skip(1).map(PathBuf::from).collect();
    let listed = match &files[..] {
        [image, text] => list(image, text),
        _ => Err(("usage: tokens IMAGE TEXT".to_string(), FAILED)),
    };
    if let Err((why, status)) = listed {
        eprintln!("{why}");
        return ExitCode::from(status);
    }
    ExitCode::SUCCESS
}
