//! Times the library against the hand-written rival, ICU and a reader made by re2c, all in one process: they take turns,
//! and the least time of each counts. Prints ratios only, below 1 where the library is faster: the least and the greatest
//! of three runs, or that of one run.

mod icu;
mod lengths;
mod re2c;
mod shared;

use icu::Icu;
use luffinarc::calls::{self, Answer};
use luffinarc::{
    write_image, Image, Profile, Role, CHANGED_ENTRY_WORDS, MAX_CHANGED_ENTRIES, MAX_ENTRIES,
    MAX_RUNS, RECORD_WORDS, RUN_WORDS,
};
use luffinarc_bench::changes::Changes;
use luffinarc_bench::prose;
use luffinarc_bench::rival::{self, Tables};
use luffinarc_bench::texts::{self, Sample};
use luffinarc_reader::cases::{image_of, most_changes};
use re2c::Re2c;
use std::ffi::CString;
use std::fmt;
use std::io::Write;
use std::time::Instant;

const IMAGE: &str = concat!(env!("CARGO_MANIFEST_DIR"), "/../data/images/unicode-16.0.img");
const OLDER: &str = concat!(env!("CARGO_MANIFEST_DIR"), "/../data/images/unicode-15.0.img");

/// The runs of each race, the least number of rounds of a run, and the seconds that it takes at least.
const RUNS: usize = 3;
const ROUNDS: usize = 20;
const SECONDS: f64 = 0.5;

/// The value, of which the compiler knows nothing.
#[inline(always)]
fn black_box<T>(value: T) -> T {
    // Safety: no instruction is added.
    unsafe { std::arch::asm!("/* {} */", in(reg) &value, options(nostack, preserves_flags)) };
    value
}

/// Seconds and nanoseconds.
#[repr(C)]
struct Timespec(i64, i64);

extern "C" {
    fn clock_gettime(clock: i32, time: *mut Timespec) -> i32;
}

/// The nanoseconds that this thread has run, as Linux counts them.
fn now() -> f64 {
    const THREAD_TIME: i32 = 3;
    let mut time = Timespec(0, 0);
    // Safety: the clock is Linux's, and the place for its time is there.
    let status = unsafe { clock_gettime(THREAD_TIME, &mut time) };
    assert_eq!(status, 0, "the clock is there");
    time.0 as f64 * 1e9 + time.1 as f64
}

/// The nanoseconds of a call, of so many.
fn time(calls: usize, call: &mut dyn FnMut()) -> f64 {
    let start = now();
    for _ in 0..calls {
        call();
    }
    (now() - start) / calls as f64
}

/// The least and the greatest ratio of the runs.
struct Spread(f64, f64);

impl fmt::Display for Spread {
    fn fmt(&self, f: &mut fmt::Formatter) -> fmt::Result {
        let digits = if self.1 < 10.0 { 2 } else { 1 };
        let (low, high) = (format!("{:.*}", digits, self.0), format!("{:.*}", digits, self.1));
        if low == high {
            return f.write_str(&low);
        }
        write!(f, "{low}–{high}")
    }
}

/// The spread of the runs of a race.
fn race(calls: usize, ours: &mut dyn FnMut(), rival: &mut dyn FnMut()) -> Spread {
    let mut spread = Spread(f64::MAX, f64::MIN);
    for _ in 0..RUNS {
        let ratio = run(calls, ours, rival);
        spread = Spread(spread.0.min(ratio), spread.1.max(ratio));
    }
    spread
}

/// The least time of our call, divided by that of the rival's; the first to go changes from round to round.
fn run(calls: usize, ours: &mut dyn FnMut(), rival: &mut dyn FnMut()) -> f64 {
    let (mut best_ours, mut best_rival) = (f64::MAX, f64::MAX);
    let (start, mut round) = (Instant::now(), 0);
    while round < ROUNDS || start.elapsed().as_secs_f64() < SECONDS {
        round += 1;
        if round % 2 == 0 {
            best_ours = best_ours.min(time(calls, ours));
            best_rival = best_rival.min(time(calls, rival));
        } else {
            best_rival = best_rival.min(time(calls, rival));
            best_ours = best_ours.min(time(calls, ours));
        }
    }
    best_ours / best_rival
}

/// A text, under its profile, for every reader.
struct Subject<'a> {
    sample: &'a Sample,
    image: Image<'a>,
    tables: Tables,
    medials: CString,
}

impl<'a> Subject<'a> {
    /// With this image, which has the sample's profile.
    fn new(sample: &'a Sample, bytes: &'a [u8]) -> Subject<'a> {
        let image = Image::check(bytes).unwrap();
        let tables = Tables::new(&image.ranges(), sample.profile);
        let medials = sample.profile.iter().filter(|entry| entry.1 == Role::Medial);
        let medials: Vec<u8> = medials.map(|entry| entry.0 as u8).collect();
        Subject { sample, image, tables, medials: CString::new(medials).unwrap() }
    }

    /// Words with room for a token at each byte, written before.
    fn words(&self) -> Vec<u32> {
        vec![0; RECORD_WORDS * self.sample.text.len()]
    }

    /// Counting, against the rival.
    fn count(&self) -> Spread {
        let text = self.sample.text.as_bytes();
        race(1, &mut || _ = black_box(self.image.count(black_box(text))), &mut || {
            _ = black_box(self.tables.count(black_box(text)))
        })
    }

    /// Listing, against the rival.
    fn list(&self) -> Spread {
        let text = self.sample.text.as_bytes();
        let (mut words, mut list) = (self.words(), Vec::with_capacity(self.words().len()));
        let count = self.image.list(text, &mut words).unwrap();
        self.tables.list(text, &mut list).unwrap();
        assert!(words[..RECORD_WORDS * count] == list, "{}: the lists differ", self.sample.name);
        race(1, &mut || _ = black_box(self.image.list(black_box(text), &mut words)), &mut || {
            _ = black_box(self.tables.list(black_box(text), &mut list))
        })
    }

    /// Listing hashtags, against the rival.
    fn hashtags(&self) -> Spread {
        let text = self.sample.text.as_bytes();
        let (mut words, mut list) = (self.words(), self.words());
        let count = self.image.list_hashtags(text, &mut words).unwrap();
        assert_eq!(self.tables.hashtags(text, &mut list), Ok(count), "{}", self.sample.name);
        assert!(words == list, "{}: the lists differ", self.sample.name);
        race(
            1,
            &mut || _ = black_box(self.image.list_hashtags(black_box(text), &mut words)),
            &mut || _ = black_box(self.tables.hashtags(black_box(text), &mut list)),
        )
    }

    /// Counting, against ICU.
    fn count_icu(&self, icu: &Icu) -> Spread {
        let text = self.sample.text.as_bytes();
        race(1, &mut || _ = black_box(self.image.count(black_box(text))), &mut || {
            _ = black_box(icu.count(black_box(text), &self.medials))
        })
    }

    /// Listing, against ICU.
    fn list_icu(&self, icu: &Icu) -> Spread {
        let text = self.sample.text.as_bytes();
        let (mut words, mut list) = (self.words(), self.words());
        let count = self.image.list(text, &mut words).unwrap();
        assert_eq!(icu.list(text, &self.medials, &mut list), count as i64, "{}", self.sample.name);
        assert!(words == list, "{}: the lists differ", self.sample.name);
        race(1, &mut || _ = black_box(self.image.list(black_box(text), &mut words)), &mut || {
            _ = black_box(icu.list(black_box(text), &self.medials, &mut list))
        })
    }

    /// The text with a NUL after it, which re2c's reader asks for; nothing under a profile, which it doesn't know.
    fn with_nul(&self) -> Option<Vec<u8>> {
        let plain = self.sample.profile.is_empty();
        plain.then(|| [self.sample.text.as_bytes(), &[0]].concat())
    }

    /// Counting, against re2c.
    fn count_re2c(&self, re2c: &Re2c) -> Option<Spread> {
        let (text, with_nul) = (self.sample.text.as_bytes(), self.with_nul()?);
        Some(race(1, &mut || _ = black_box(self.image.count(black_box(text))), &mut || {
            _ = black_box(re2c.count(black_box(&with_nul)))
        }))
    }

    /// Listing, against re2c.
    fn list_re2c(&self, re2c: &Re2c) -> Option<Spread> {
        let (text, with_nul) = (self.sample.text.as_bytes(), self.with_nul()?);
        let (mut words, mut list) = (self.words(), self.words());
        let count = self.image.list(text, &mut words).unwrap() as i64;
        assert_eq!([re2c.count(&with_nul), re2c.list(&with_nul, &mut list)], [count; 2]);
        assert!(words == list, "{}: the lists differ", self.sample.name);
        Some(race(
            1,
            &mut || _ = black_box(self.image.list(black_box(text), &mut words)),
            &mut || _ = black_box(re2c.list(black_box(&with_nul), &mut list)),
        ))
    }
}

/// A ratio, or nothing.
fn shown(spread: Option<Spread>) -> String {
    spread.map_or(String::new(), |spread| spread.to_string())
}

/// Prints a row of the table.
fn row<T>(name: &str, cells: &[T], cell: impl Fn(&T) -> String) {
    print!("| {name} |");
    for of in cells {
        print!(" {} |", cell(of));
        std::io::stdout().flush().unwrap();
    }
    println!();
}

/// Prints the head of a table.
fn head(subjects: &[Subject]) {
    row("", subjects, |subject| subject.sample.name.to_string());
    row("---", subjects, |_| "---".to_string());
}

/// Prints the table of counting and listing tokens.
fn tokens(subjects: &[Subject]) {
    head(subjects);
    row("count / hand-written", subjects, |subject| subject.count().to_string());
    row("list / hand-written", subjects, |subject| subject.list().to_string());
    let (icu, re2c) = (Icu::load(), Re2c::load());
    if let Some(icu) = &icu {
        row("count / ICU", subjects, |subject| subject.count_icu(icu).to_string());
        row("list / ICU", subjects, |subject| subject.list_icu(icu).to_string());
    }
    if let Some(re2c) = &re2c {
        re2c.check(&subjects[0].image);
        row("count / re2c", subjects, |subject| shown(subject.count_re2c(re2c)));
        row("list / re2c", subjects, |subject| shown(subject.list_re2c(re2c)));
    }
    if icu.is_none() {
        println!("\nNo ICU to compare with: Debian's packages pkg-config and libicu-dev have it.");
    }
    if re2c.is_none() {
        println!("\nre2c: not installed, skipped");
    }
}

/// Prints the table of listing hashtags in flowing text.
fn hashtags(subjects: &[Subject]) {
    println!("\nFlowing text with a tag to 200 to 300 bytes, and one that is dense in tags,");
    println!("under a profile that makes the plus sign, the hyphen and a spanner part of them.");
    println!("Short lines: the English text with line ends for some of its blanks.\n");
    head(subjects);
    row("hashtags / hand-written", subjects, |subject| subject.hashtags().to_string());
}

/// Hands samples, each under the image with its profile, to what prints their table.
fn with_subjects(image: &Image, samples: &[Sample], print: fn(&[Subject])) {
    let with_profile = |sample: &Sample| {
        write_image(image.version(), &image.ranges(), &Profile::new(sample.profile)).unwrap()
    };
    let images: Vec<Vec<u8>> = samples.iter().map(with_profile).collect();
    let both = samples.iter().zip(&images);
    print(&both.map(|(sample, bytes)| Subject::new(sample, bytes)).collect::<Vec<_>>());
}

/// Counting and listing under an image, against the same under another, which gives the same tokens.
fn under(image: &Image, other: &Image, text: &[u8]) -> [Spread; 2] {
    let mut words = vec![0; RECORD_WORDS * text.len()];
    let mut others = words.clone();
    assert_eq!(image.list(text, &mut words), other.list(text, &mut others));
    assert!(words == others, "the lists differ");
    let count = race(1, &mut || _ = black_box(image.count(black_box(text))), &mut || {
        _ = black_box(other.count(black_box(text)))
    });
    let list = race(1, &mut || _ = black_box(image.list(black_box(text), &mut words)), &mut || {
        _ = black_box(other.list(black_box(text), &mut others))
    });
    [count, list]
}

/// Prints what a profile of as many entries as may be costs, which changes no token of these texts.
fn large_profile(plain: &Image) {
    println!("\nUnder a profile of {MAX_ENTRIES} entries, which changes no token / without it:");
    println!("\n| | count | list |\n|---|---|---|");
    for sample in texts::profiled() {
        let profile = Profile::new(sample.profile);
        let bytes = write_image(plain.version(), &plain.ranges(), &profile).unwrap();
        let image = Image::check(&bytes).unwrap();
        let [count, list] = under(&image, plain, sample.text.as_bytes());
        println!("| {} | {count} | {list} |", sample.name);
    }
}

/// Prints the ratios of calls on short texts. The rival's tables are made before; the library's call has the image alone.
fn short_texts(image: &Image, tables: &Tables) {
    println!("\nShort texts / hand-written, whose tables are made before:\n");
    println!("| bytes | count | list |\n|---|---|---|");
    for text in texts::SHORT.map(str::as_bytes) {
        let (mut words, mut list) = (vec![0; RECORD_WORDS * text.len()], Vec::new());
        let tokens = image.list(text, &mut words).unwrap();
        assert_eq!((tables.list(text, &mut list), image.count(text)), (Ok(tokens), Ok(tokens)));
        assert!(words[..RECORD_WORDS * tokens] == list, "a short text: the lists differ");
        let count = race(1000, &mut || _ = black_box(image.count(black_box(text))), &mut || {
            _ = black_box(tables.count(black_box(text)))
        });
        let listed =
            race(1000, &mut || _ = black_box(image.list(black_box(text), &mut words)), &mut || {
                _ = black_box(tables.list(black_box(text), &mut list))
            });
        println!("| {} | {count} | {listed} |", text.len());
    }
}

/// Looking up these numbers, against the rival.
fn lookup(image: &Image, tables: &Tables, points: &[u32]) -> Spread {
    race(
        1,
        &mut || {
            for &point in points {
                let _ = black_box(image.lookup(black_box(point)));
            }
        },
        &mut || {
            for &point in points {
                black_box(tables.flags_of(black_box(point)));
            }
        },
    )
}

/// Checking an image, against the rival.
fn check(image: &[u8]) -> Spread {
    race(50, &mut || _ = black_box(Image::check(black_box(image))), &mut || {
        _ = black_box(rival::check(black_box(image)))
    })
}

/// Listing what changed between two images, against the rival. Both check the images, and have room for all changes.
fn changes(older: &[u8], newer: &[u8]) -> Spread {
    let (mut list, mut answer) = (Changes::default(), Answer::default());
    let mut runs = vec![0; RUN_WORDS * MAX_RUNS];
    let mut entries = vec![0; CHANGED_ENTRY_WORDS * MAX_CHANGED_ENTRIES];
    let number = calls::changes(older, newer, &mut runs, &mut entries, &mut answer);
    let (r, e) = list.list(older, newer).unwrap();
    assert_eq!((number, answer), (0, [r as u64, e as u64, 0, 0]));
    assert!(list.runs.concat() == runs[..RUN_WORDS * r], "the runs differ");
    assert!(list.entries.concat() == entries[..CHANGED_ENTRY_WORDS * e], "the entries differ");
    race(
        20,
        &mut || {
            let (older, newer) = (black_box(older), black_box(newer));
            black_box(calls::changes(older, newer, &mut runs, &mut entries, &mut answer));
        },
        &mut || _ = black_box(list.list(black_box(older), black_box(newer))),
    )
}

/// Prints the ratios of the calls on images.
fn of_images(bytes: &[u8]) {
    println!("image check / hand-written: {}", check(bytes));
    println!("changes, with both images checked in the call and room for all / hand-written:");
    let older = std::fs::read(OLDER).unwrap();
    println!("  from 15.0 to 16.0: {}", changes(&older, bytes));
    let (older, newer) = most_changes();
    let of_most = changes(&image_of(&older), &image_of(&newer));
    println!("  two images of 4,096 ranges, {MAX_RUNS} runs: {of_most}");
}

fn main() {
    let bytes = std::fs::read(IMAGE).unwrap();
    let image = Image::check(&bytes).unwrap();
    let ranges = image.ranges();
    println!("Time of the library divided by the other's, least processor times of a run; of {RUNS} runs the");
    println!("least and the greatest ratio.");
    println!(
        "Image: Unicode 16.0, {} ranges, checked once before. Texts: 1 MiB each.",
        ranges.len()
    );
    println!(
        "Dotted names are read under a profile that makes the hyphen and the full stop medial."
    );
    println!("Random letters: all letters of Unicode 15.0 alike; random ranges: first a range of letters, all");
    println!("alike, then a letter of it.");
    println!(
        "List: {RECORD_WORDS} words lent for every byte of the text, to both, and written before the clock."
    );
    println!(
        "Library: as `host/library` compiles it, for x86-64-v2. Rival: Rust, opt-level 3, for plain x86-64."
    );
    println!("They take turns, {ROUNDS} rounds or more in {SECONDS} s for each run.\n");
    // ICU may not know the letters of later versions.
    let older = std::fs::read(OLDER).unwrap();
    let letters = Image::check(&older).unwrap().ranges();
    let samples = texts::all(&letters);
    with_subjects(&image, &samples, tokens);
    large_profile(&image);
    with_subjects(&image, &prose::all(), hashtags);
    let tables = Tables::new(&ranges, &[]);
    short_texts(&image, &tables);
    let rising: Vec<u32> = (0..=0x10FFFF).filter(|&p| char::from_u32(p).is_some()).collect();
    let mixed: Vec<u32> = texts::mixed().chars().map(u32::from).collect();
    let of_rising = lookup(&image, &tables, &rising);
    println!("\nlookup of every scalar value / hand-written: {of_rising}");
    let of_mixed = lookup(&image, &tables, &mixed);
    println!("lookup of the characters of mixed scripts / hand-written: {of_mixed}");
    of_images(&bytes);
    // ASCII, Polish, Adlam and mixed scripts.
    lengths::curve(&image, &samples[..4], Re2c::load().as_ref());
    lengths::real_texts();
}
