//! Real texts: files of this repository, as they are today, and files that are named. None took part in a choice of the
//! design.

use luffinarc::{Image, Kind, MAX_TEXT};
use std::fs;
use std::path::{Path, PathBuf};

/// The lengths of the pieces that are timed; the whole text is too.
pub const LENGTHS: [usize; 2] = [300, 4096];

/// The variable with the paths of more texts, blanks between them.
pub const VARIABLE: &str = "LUFFINARC_TEXTS";

/// A text, what it is called, and how many of its characters became blanks.
pub struct Real {
    pub name: String,
    pub text: String,
    pub blanks: usize,
}

/// The files in a folder and the folders below it, rising, without those that cargo writes.
fn files(folder: &Path) -> Vec<PathBuf> {
    let entries = fs::read_dir(folder).unwrap().map(|entry| entry.unwrap().path());
    let mut paths: Vec<PathBuf> = entries.filter(|path| !path.ends_with("target")).collect();
    paths.sort();
    let below = |path: PathBuf| if path.is_dir() { files(&path) } else { vec![path] };
    paths.into_iter().flat_map(below).collect()
}

/// The text, as far as its length is accepted, with a blank for each character that begins no token where one has to
/// begin, and for each direction mark. Gives the number of blanks too.
pub fn readable(image: &Image, text: &str) -> (String, usize) {
    let mut end = text.len().min(MAX_TEXT);
    while !text.is_char_boundary(end) {
        end -= 1;
    }
    let text = &text[..end];
    let (mut readable, mut blanks, mut at) = (String::new(), 0, 0);
    while let Some(c) = text[at..].chars().next() {
        let token = image.token_at(text, at).ok().flatten();
        if let Some(token) = token.filter(|token| token.kind != Kind::Mark) {
            readable.push_str(&text[token.range.clone()]);
            at = token.range.end;
        } else {
            readable.push(' ');
            blanks += 1;
            at += c.len_utf8();
        }
    }
    (readable, blanks)
}

/// The files' text; bytes that aren't UTF-8 become blanks too.
fn joined(image: &Image, name: &str, paths: &[PathBuf]) -> Real {
    let read =
        |path: &PathBuf| fs::read(path).unwrap_or_else(|e| panic!("{}: {e}", path.display()));
    let bytes: Vec<u8> = paths.iter().flat_map(read).collect();
    let (text, blanks) = readable(image, &String::from_utf8_lossy(&bytes));
    Real { name: name.to_string(), text, blanks }
}

/// The texts of the repository.
pub fn of_repository(image: &Image) -> Vec<Real> {
    let host = Path::new(env!("CARGO_MANIFEST_DIR")).parent().unwrap();
    let root = host.parent().unwrap();
    let of = |folder: &Path, ending: &str| -> Vec<PathBuf> {
        let ends = |path: &PathBuf| path.extension().map_or(false, |of| of == ending);
        files(folder).into_iter().filter(ends).collect()
    };
    let docs = root.join("docs");
    let mut pages = of(&docs, "md");
    pages.retain(|page| page.parent() == Some(&docs));
    pages.push(root.join("README.md"));
    let data = host.join("data");
    vec![
        joined(image, "Rust sources of host/", &of(host, "rs")),
        joined(image, "docs/*.md and README.md", &pages),
        joined(image, "luffinarc.h", &[host.join("include/luffinarc.h")]),
        joined(image, "files of data/ucd/16.0", &of(&data.join("ucd/16.0"), "txt")),
        joined(image, "thai-tibetan.txt", &[data.join("texts/thai-tibetan.txt")]),
    ]
}

/// The texts that the variable names.
pub fn named(image: &Image) -> Vec<Real> {
    let paths = std::env::var(VARIABLE).unwrap_or_default();
    let name = |path: &str| path.rsplit('/').next().unwrap_or(path).to_string();
    let text = |path: &str| joined(image, &name(path), &[PathBuf::from(path)]);
    paths.split_whitespace().map(text).collect()
}
