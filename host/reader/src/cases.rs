//! Made arguments for every call, the same in each run, so that two readers
//! can be run on them and compared.

mod images;
mod pairs;
mod tally;
mod texts;

pub use images::{
    damaged_image, hashtag_image, image_of, large_image, marked_images, small_image, spread_image,
    valid_image,
};
pub use pairs::{forbidden_change, most_changes, permitted_changes, unequal_profile};
pub use tally::Tally;
pub use texts::{hashtag_text, marked_text, random_bytes, text, text_with_hashtags, token_text};

use crate::changes::{changes_of, CHANGED_ENTRY_WORDS, RUN_WORDS};
use crate::hashtag::hashtags;
use crate::image::{
    total_length, Image, Profile, Range, CODE_POINTS, MAX_ENTRIES, MAX_RANGES, RANGE_WORDS,
};
use crate::lister::MAX_SCRIPT;
use crate::names::class;
use crate::record::RECORD_WORDS;
use crate::token::{count, part};
use crate::utf8::first;

const SEED: u64 = 0x9E37_79B9_7F4A_7C15;

/// A xorshift generator of numbers.
#[derive(Clone, Debug)]
pub struct Rng(u64);

impl Rng {
    /// The generator with the fixed seed.
    pub fn new() -> Rng {
        Rng(SEED)
    }

    /// A generator with another seed.
    pub fn seeded(seed: u64) -> Rng {
        // The seed is odd, so the state is never 0.
        Rng(SEED ^ seed << 1)
    }

    pub fn number(&mut self) -> u64 {
        self.0 ^= self.0 << 13;
        self.0 ^= self.0 >> 7;
        self.0 ^= self.0 << 17;
        self.0.wrapping_mul(0x2545_F491_4F6C_DD1D) >> 16
    }

    /// A number below the bound, which is not 0.
    pub fn below(&mut self, bound: usize) -> usize {
        (self.number() % bound as u64) as usize
    }

    /// True once in so many times.
    pub fn once_in(&mut self, times: usize) -> bool {
        self.below(times) == 0
    }

    pub fn pick<'a, T>(&mut self, list: &'a [T]) -> &'a T {
        &list[self.below(list.len())]
    }

    pub fn word(&mut self) -> u32 {
        self.number() as u32
    }
}

impl Default for Rng {
    fn default() -> Rng {
        Rng::new()
    }
}

#[derive(Clone, Debug)]
pub struct CheckCase {
    pub image: Vec<u8>,
}

#[derive(Clone, Debug)]
pub struct ReadCase {
    pub image: Vec<u8>,
    pub room: usize,
}

#[derive(Clone, Debug)]
pub struct WriteCase {
    pub version: u32,
    pub words: Vec<u32>,
    pub profile: Profile,
    pub length: usize,
}

#[derive(Clone, Debug)]
pub struct LookupCase {
    pub image: Vec<u8>,
    pub number: u32,
}

#[derive(Clone, Debug)]
pub struct PairCase {
    pub older: Vec<u8>,
    pub newer: Vec<u8>,
}

#[derive(Clone, Debug)]
pub struct ChangesCase {
    pub older: Vec<u8>,
    pub newer: Vec<u8>,
    pub run_room: usize,
    pub entry_room: usize,
}

#[derive(Clone, Debug)]
pub struct CountCase {
    pub image: Vec<u8>,
    pub text: Vec<u8>,
}

#[derive(Clone, Debug)]
pub struct ListCase {
    pub image: Vec<u8>,
    pub text: Vec<u8>,
    pub room: usize,
}

#[derive(Clone, Debug)]
pub struct AtCase {
    pub image: Vec<u8>,
    pub text: Vec<u8>,
    pub place: usize,
}

#[derive(Clone, Debug)]
pub struct PartCase {
    pub text: Vec<u8>,
    pub start: usize,
    pub end: usize,
}

#[derive(Clone, Debug)]
pub struct ListerCase {
    pub input: Vec<u8>,
}

/// Two images that differ only by permitted changes, and a text.
#[derive(Clone, Debug)]
pub struct StableCase {
    pub older: Vec<u8>,
    pub newer: Vec<u8>,
    pub text: Vec<u8>,
}

/// A valid image, and its bytes, damaged once in so many times.
fn image_bytes(rng: &mut Rng, times: usize) -> (Image, Vec<u8>) {
    let image = valid_image(rng);
    let bytes = if rng.once_in(times) { damaged_image(rng) } else { image_of(&image) };
    (image, bytes)
}

/// A buffer's length about the exact one.
fn room(rng: &mut Rng, exact: usize) -> usize {
    match rng.below(8) {
        0 | 1 => exact,
        2 => exact.saturating_sub(1),
        3 => exact.saturating_sub(3),
        4 => exact + 1,
        5 => exact + rng.below(40),
        6 => rng.below(exact + 1),
        _ => exact + 3,
    }
}

pub fn check_case(rng: &mut Rng) -> CheckCase {
    CheckCase { image: image_bytes(rng, 2).1 }
}

pub fn read_case(rng: &mut Rng) -> ReadCase {
    let (image, bytes) = image_bytes(rng, 3);
    ReadCase { image: bytes, room: room(rng, RANGE_WORDS * image.ranges.len()) }
}

/// Changes words or used length so that the writer has something to refuse.
fn spoil(rng: &mut Rng, words: &mut Vec<u32>, profile: &mut Profile) {
    const OVER: u32 = MAX_ENTRIES as u32 + 1;
    let used = (profile.used as usize).min(MAX_ENTRIES);
    match rng.below(8) {
        0 => words.truncate(words.len().saturating_sub(1 + rng.below(2))),
        1 => words.push(rng.word()),
        2 => profile.used = *rng.pick(&[OVER, OVER + 1, 1000, 0x8000_0000, u32::MAX]),
        3 => profile.used = rng.below(MAX_ENTRIES + 1) as u32,
        4 => *words = (0..=MAX_RANGES as u32).flat_map(|i| [2 * i, 2 * i, 1 + i % 5]).collect(),
        5 if !words.is_empty() => {
            let i = rng.below(words.len());
            words[i] = *rng.pick(&[0, 1, 6, 0xD800, 0xDFFF, 0x10FFFF, 0x110000, u32::MAX]);
        }
        6 if used > 0 => {
            let i = rng.below(used);
            profile.points[i] = *rng.pick(&[0, 0x41, 0xD800, 0xDFFF, 0x10FFFF, 0x110000, u32::MAX]);
        }
        7 if used > 0 => {
            let i = rng.below(used);
            profile.roles[i] = *rng.pick(&[0, 6, 7, u32::MAX]);
        }
        _ => {}
    }
}

pub fn write_case(rng: &mut Rng) -> WriteCase {
    let image = valid_image(rng);
    let mut words: Vec<u32> =
        image.ranges.iter().flat_map(|r| [r.first, r.last, r.class]).collect();
    let mut profile = image.profile;
    if rng.once_in(2) {
        // The writer does not look at entries past the used length.
        for i in profile.used as usize..MAX_ENTRIES {
            profile.points[i] = rng.word();
            profile.roles[i] = rng.word();
        }
    }
    while rng.once_in(2) {
        spoil(rng, &mut words, &mut profile);
    }
    let used = (profile.used as usize).min(MAX_ENTRIES + 1);
    let length = room(rng, total_length(words.len() / RANGE_WORDS, used));
    WriteCase { version: rng.word(), words, profile, length }
}

/// A number for lookup: about the ranges and entries, or no scalar value.
fn number(rng: &mut Rng, image: &Image) -> u32 {
    let none = Range { first: 0, last: 0x10FFFF, class: class::UNASSIGNED };
    let range = if image.ranges.is_empty() { none } else { *rng.pick(&image.ranges) };
    match rng.below(10) {
        0 => range.first,
        1 => range.last,
        2 => range.first.saturating_sub(1),
        3 => range.last + 1,
        4 => range.first + rng.below((range.last - range.first + 1) as usize) as u32,
        5 => image.profile.points[rng.below(MAX_ENTRIES)],
        6 => rng.below(CODE_POINTS) as u32,
        7 => *rng.pick(&[0, 0xD7FF, 0xD800, 0xDFFF, 0xE000, 0x10FFFF, 0x110000, u32::MAX]),
        8 => rng.word(),
        _ => rng.below(0x80) as u32,
    }
}

pub fn lookup_case(rng: &mut Rng) -> LookupCase {
    let (image, bytes) = image_bytes(rng, 6);
    LookupCase { image: bytes, number: number(rng, &image) }
}

pub fn pair_case(rng: &mut Rng) -> PairCase {
    let older = valid_image(rng);
    let newer = match rng.below(8) {
        0 => older.clone(),
        1 | 2 => permitted_changes(rng, &older),
        3 => forbidden_change(rng, &older),
        4 => unequal_profile(rng, &older),
        5 => {
            let changed = forbidden_change(rng, &older);
            unequal_profile(rng, &changed)
        }
        6 => Image { profile: older.profile, ..valid_image(rng) },
        _ => valid_image(rng),
    };
    let mut case = PairCase { older: image_of(&older), newer: image_of(&newer) };
    if rng.once_in(6) {
        case.older = damaged_image(rng);
    }
    if rng.once_in(6) {
        case.newer = damaged_image(rng);
    }
    case
}

/// Rooms about the exact ones; a list that needs any may get none.
pub fn changes_case(rng: &mut Rng) -> ChangesCase {
    let PairCase { older, newer } = pair_case(rng);
    let (runs, entries) = changes_of(&older, &newer).map_or((8, 8), |(r, e)| (r.len(), e.len()));
    let mut rooms = [RUN_WORDS * runs, CHANGED_ENTRY_WORDS * entries].map(|exact| room(rng, exact));
    if rng.once_in(12) {
        rooms[rng.below(2)] = 0;
    }
    let [run_room, entry_room] = rooms;
    ChangesCase { older, newer, run_room, entry_room }
}

pub fn count_case(rng: &mut Rng) -> CountCase {
    let (image, bytes) = image_bytes(rng, 8);
    CountCase { image: bytes, text: text(rng, &image) }
}

pub fn list_case(rng: &mut Rng) -> ListCase {
    let CountCase { image, text } = count_case(rng);
    let exact = RECORD_WORDS * count(&image, &text).unwrap_or(8);
    ListCase { image, text, room: room(rng, exact) }
}

/// Rooms about the exact one; a list that needs any may get none.
pub fn hashtag_case(rng: &mut Rng) -> ListCase {
    let made = hashtag_image(rng);
    let image = if rng.once_in(8) { damaged_image(rng) } else { image_of(&made) };
    let text = text_with_hashtags(rng, &made);
    let mut words = vec![0; RECORD_WORDS * text.len()];
    let exact = RECORD_WORDS * hashtags(&image, &text, &mut words).unwrap_or(8);
    let room = if rng.once_in(12) { 0 } else { room(rng, exact) };
    ListCase { image, text, room }
}

/// A place in the text: about its end, at a code point, or anywhere.
fn place(rng: &mut Rng, text: &[u8]) -> usize {
    let any = rng.below(text.len() + 1);
    match rng.below(8) {
        0 => 0,
        1 => text.len(),
        2 => text.len() + 1,
        3 => *rng.pick(&[text.len() + 2, u32::MAX as usize, usize::MAX]),
        4 | 5 => (any..text.len()).find(|&i| first(&text[i..]).is_some()).unwrap_or(0),
        _ => any,
    }
}

pub fn at_case(rng: &mut Rng) -> AtCase {
    let CountCase { image, text } = count_case(rng);
    let place = place(rng, &text);
    AtCase { image, text, place }
}

pub fn part_case(rng: &mut Rng) -> PartCase {
    let text = random_bytes(rng, 30);
    let (start, end) = (place(rng, &text), place(rng, &text));
    let turn = part(&text, start, end).is_err() && rng.once_in(2);
    let (start, end) = if turn { (end, start) } else { (start, end) };
    PartCase { text, start, end }
}

pub fn lister_case(rng: &mut Rng) -> ListerCase {
    let CountCase { image: mut input, mut text } = count_case(rng);
    if rng.once_in(8) {
        text.resize(*rng.pick(&[MAX_SCRIPT - 1, MAX_SCRIPT, MAX_SCRIPT + 1, 9000]), b' ');
    }
    // A long text would only be refused with 5 again.
    text.truncate(10_000);
    input.extend(text);
    if rng.once_in(12) {
        input.truncate(rng.below(120));
    }
    ListerCase { input }
}

pub fn change_lister_case(rng: &mut Rng) -> ListerCase {
    let PairCase { older, newer } = pair_case(rng);
    let mut input = [older, newer].concat();
    match rng.below(12) {
        0 => input.truncate(rng.below(120)),
        1 => input.truncate(rng.below(input.len() + 1)),
        2 => input.extend(random_bytes(rng, 20)),
        _ => {}
    }
    ListerCase { input }
}

pub fn stable_case(rng: &mut Rng) -> StableCase {
    let older = valid_image(rng);
    let newer = permitted_changes(rng, &older);
    let text = if rng.once_in(2) { text(rng, &older) } else { text(rng, &newer) };
    StableCase { older: image_of(&older), newer: image_of(&newer), text }
}

/// The same, short and with marks.
pub fn marked_case(rng: &mut Rng) -> StableCase {
    let (older, newer) = marked_images(rng);
    StableCase { older: image_of(&older), newer: image_of(&newer), text: marked_text(rng) }
}
