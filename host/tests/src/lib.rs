//! The proved library as a reader: its calls answer as the independent reader's do. Each call is given its slices
//! between bytes or words that are compared afterwards, and an answer array that is held to what is documented.

mod lent;
pub mod library;
mod program;

pub use library::Library;

use luffinarc_reader::Refusal;
use std::io::Write;

/// How many made cases to run of each call: `LUFFINARC_CASES`, or so many.
pub fn runs(usual: usize) -> usize {
    match std::env::var("LUFFINARC_CASES") {
        Ok(number) => number.parse().expect("LUFFINARC_CASES is a number"),
        Err(_) => usual,
    }
}

/// A refusal of the safe types, as the reader names it.
pub fn named(refusal: luffinarc::Refusal) -> Refusal {
    let mut carried = [0; 2];
    for (to, from) in carried.iter_mut().zip(refusal.carried()) {
        *to = from;
    }
    Refusal::named(refusal.number(), carried).unwrap()
}

/// Writes a line past the test harness, so that it is always seen.
pub fn say(line: &str) {
    let mut out = std::io::stdout();
    writeln!(out, "{line}").unwrap();
}

/// The bytes of a file of the data folder.
pub fn data(name: &str) -> Vec<u8> {
    let folder = concat!(env!("CARGO_MANIFEST_DIR"), "/../data/");
    std::fs::read(format!("{folder}{name}")).unwrap()
}
