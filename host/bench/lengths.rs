//! Counting and listing by length: the tables of pieces of the benchmark's texts, and of real texts.

use crate::re2c::Re2c;
use crate::{black_box, row, time, Spread};
use luffinarc::{Image, Role, RECORD_WORDS};
use luffinarc_bench::pieces::{Pieces, LENGTHS};
use luffinarc_bench::real;
use luffinarc_bench::rival::Tables;
use luffinarc_bench::texts::Sample;
use std::time::Instant;

const SCRIPTS: &str = concat!(env!("CARGO_MANIFEST_DIR"), "/../data/images/scripts-17.0.img");

/// The least number of rounds of a race, and the seconds that it takes at least.
const ROUNDS: usize = 15;
const SECONDS: f64 = 0.1;

/// What is compared with: the hand-written rival first, then re2c.
const OTHERS: [&str; 2] = ["hand-written", "re2c"];

/// The library's least time, divided by each other's; they take turns, and the first to go changes from round to round.
fn ratios(calls: &mut [&mut dyn FnMut()]) -> Vec<String> {
    let mut best = vec![f64::MAX; calls.len()];
    let (start, mut round) = (Instant::now(), 0);
    while round < ROUNDS || start.elapsed().as_secs_f64() < SECONDS {
        for turn in 0..calls.len() {
            let i = (turn + round) % calls.len();
            best[i] = best[i].min(time(1, calls[i]));
        }
        round += 1;
    }
    best[1..].iter().map(|other| best[0] / other).map(|r| Spread(r, r).to_string()).collect()
}

/// The readers of texts under an image; re2c's if it has the classes of that image.
struct Readers<'a> {
    image: Image<'a>,
    tables: Tables,
    re2c: Option<&'a Re2c>,
}

impl<'a> Readers<'a> {
    fn new(image: Image<'a>, re2c: Option<&'a Re2c>) -> Readers<'a> {
        let profile: Vec<(u32, Role)> = image.profile().entries().collect();
        Readers { image, tables: Tables::new(&image.ranges(), &profile), re2c }
    }

    /// All readers count and list each piece alike.
    fn agree(&self, name: &str, pieces: &Pieces) {
        let mut words = vec![0; RECORD_WORDS * pieces.length()];
        let (mut others, mut list) = (words.clone(), Vec::new());
        for (piece, with_nul) in pieces.iter().zip(pieces.with_nul()) {
            let count =
                self.image.list(piece, &mut words).unwrap_or_else(|r| panic!("{name}: {r}"));
            let tokens = &words[..RECORD_WORDS * count];
            let rival = [self.tables.count(piece), self.tables.list(piece, &mut list)];
            assert_eq!((self.image.count(piece), rival), (Ok(count), [Ok(count); 2]), "{name}");
            assert!(list == tokens, "{name}: the lists differ");
            if let Some(re2c) = self.re2c {
                let counts = [re2c.count(with_nul), re2c.list(with_nul, &mut others)];
                assert_eq!(counts, [count as i64; 2], "{name}");
                assert!(others[..tokens.len()] == *tokens, "{name}: re2c's list differs");
            }
        }
    }

    /// The ratios of counting pieces.
    fn count(&self, pieces: &Pieces) -> Vec<String> {
        let mut ours = || {
            for piece in pieces.iter() {
                let _ = black_box(self.image.count(black_box(piece)));
            }
        };
        let mut rival = || {
            for piece in pieces.iter() {
                let _ = black_box(self.tables.count(black_box(piece)));
            }
        };
        let mut re2c = self.re2c.map(|re2c| {
            move || {
                for piece in pieces.with_nul() {
                    black_box(re2c.count(black_box(piece)));
                }
            }
        });
        let mut calls: Vec<&mut dyn FnMut()> = vec![&mut ours, &mut rival];
        calls.extend(re2c.as_mut().map(|call| call as &mut dyn FnMut()));
        ratios(&mut calls)
    }

    /// The ratios of listing pieces.
    fn list(&self, pieces: &Pieces) -> Vec<String> {
        let mut words = vec![0; RECORD_WORDS * pieces.length()];
        let (mut others, mut list) = (words.clone(), words.clone());
        let mut ours = || {
            for piece in pieces.iter() {
                let _ = black_box(self.image.list(black_box(piece), &mut words));
            }
        };
        let mut rival = || {
            for piece in pieces.iter() {
                let _ = black_box(self.tables.list(black_box(piece), &mut list));
            }
        };
        let others = &mut others;
        let mut re2c = self.re2c.map(|re2c| {
            move || {
                for piece in pieces.with_nul() {
                    black_box(re2c.list(black_box(piece), others));
                }
            }
        });
        let mut calls: Vec<&mut dyn FnMut()> = vec![&mut ours, &mut rival];
        calls.extend(re2c.as_mut().map(|call| call as &mut dyn FnMut()));
        ratios(&mut calls)
    }

    /// Both, for pieces of so many bytes; nothing where the text is shorter.
    fn both(&self, name: &str, text: &str, len: usize) -> Option<[Vec<String>; 2]> {
        let pieces = Pieces::new(&self.image, text, len)?;
        self.agree(name, &pieces);
        Some([self.count(&pieces), self.list(&pieces)])
    }
}

/// Prints the ratios of each text by length; the texts are read without a profile.
pub fn curve(image: &Image, samples: &[Sample], re2c: Option<&Re2c>) {
    println!("\nBy length, in one run: different pieces of a text from tokens on, some 64 KiB of them, each by a call.");
    println!("The other's tables are made before.\n");
    row("bytes", &LENGTHS, |length| length.to_string());
    row("---", &LENGTHS, |_| "---".to_string());
    let readers = Readers::new(*image, re2c);
    for sample in samples {
        let cells = LENGTHS.map(|length| readers.both(sample.name, &sample.text, length).unwrap());
        for (i, other) in OTHERS.iter().enumerate().take(cells[0][0].len()) {
            for (j, call) in ["count", "list"].iter().enumerate() {
                let name = format!("{}, {call} / {other}", sample.name);
                row(&name, &cells, |cell| cell[j][i].clone());
            }
        }
    }
}

/// Prints the ratios of real texts to the rival, in pieces and whole.
pub fn real_texts() {
    let bytes = std::fs::read(SCRIPTS).unwrap();
    let image = Image::check(&bytes).unwrap();
    println!("\nReal texts / hand-written, in one run, in pieces as above and whole, under Unicode 17.0 with the profile");
    println!(
        "for scripts. Characters that begin no token became blanks. {} names more texts.\n",
        real::VARIABLE
    );
    print!("| | bytes | blanks |");
    let lengths = real::LENGTHS.map(|length| length.to_string());
    for length in lengths.iter().map(String::as_str).chain(["whole"]) {
        print!(" count, {length} | list, {length} |");
    }
    println!("\n|{}", "---|".repeat(5 + 2 * real::LENGTHS.len()));
    let readers = Readers::new(image, None);
    for text in real::of_repository(&image).iter().chain(&real::named(&image)) {
        let whole = text.text.len();
        let mut cells = vec![whole.to_string(), text.blanks.to_string()];
        for length in real::LENGTHS.into_iter().chain([whole]) {
            match readers.both(&text.name, &text.text, length) {
                Some(ratios) => cells.extend(ratios.concat()),
                None => cells.extend(["".to_string(), "".to_string()]),
            }
        }
        row(&text.name, &cells, String::clone);
    }
}
