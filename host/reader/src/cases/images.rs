//! Made images: valid and damaged.

use super::Rng;
use crate::hashtag::SIGNS;
use crate::image::{
    permitted, profile_offset, total_length, Image, Profile, Range, CODE_POINTS, ENTRY_BYTES,
    FORMAT, HEADER_BYTES, MAX_ENTRIES, MAX_IMAGE, MAX_RANGES, RANGE_BYTES,
};
use crate::names::class::{NONSTART, OTHER, START, SYNTAX, UNASSIGNED, WHITE};
use crate::names::role;
use crate::utf8::is_scalar;
use std::collections::{BTreeMap, BTreeSet};

/// Code points at which something changes: length, class, limit or line.
pub const EDGES: [u32; 40] = [
    0x00, 0x09, 0x0A, 0x0B, 0x0C, 0x0D, 0x20, 0x23, 0x2D, 0x2E, 0x30, 0x39, 0x41, 0x5A, 0x5F, 0x61,
    0x7A, 0x7F, 0x80, 0x85, 0xB7, 0xE9, 0x104, 0x7FF, 0x800, 0x200C, 0x200E, 0x200F, 0x2028,
    0x2029, 0xD7FF, 0xE000, 0xFE5F, 0xFEFF, 0xFF03, 0xFFFD, 0xFFFF, 0x10000, 0x1E922, 0x10FFFF,
];

/// Ranges like those in use: letters, digits, signs and blanks.
const USUAL: [(u32, u32, u32); 26] = [
    (0x09, 0x0D, WHITE),
    (0x20, 0x20, WHITE),
    (0x21, 0x2F, SYNTAX),
    (0x30, 0x39, NONSTART),
    (0x3A, 0x40, SYNTAX),
    (0x41, 0x5A, START),
    (0x5F, 0x5F, NONSTART),
    (0x61, 0x7A, START),
    (0x7B, 0x7E, SYNTAX),
    (0x85, 0x85, WHITE),
    (0xA0, 0xA0, OTHER),
    (0xB5, 0xB5, START),
    (0xB7, 0xB7, NONSTART),
    (0xC0, 0xD6, START),
    (0xD7, 0xD7, SYNTAX),
    (0xE9, 0x2C1, START),
    (0x300, 0x36F, NONSTART),
    (0x200C, 0x200D, OTHER),
    (0x200E, 0x200F, WHITE),
    (0x2010, 0x2027, SYNTAX),
    (0x2028, 0x2029, WHITE),
    (0x4E00, 0x9FFF, START),
    (0xFDD0, 0xFDEF, OTHER),
    (0x1E900, 0x1E943, START),
    (0x1E944, 0x1E94A, NONSTART),
    (0xE0100, 0xE01EF, NONSTART),
];

/// The words of an image before they are put into bytes.
struct Draft {
    header: [u32; 8],
    ranges: Vec<Range>,
    entries: Vec<(u32, u32)>,
}

impl Draft {
    fn of(image: &Image) -> Draft {
        let mut draft = Draft {
            header: [0; 8],
            ranges: image.ranges.clone(),
            entries: image.profile.entries(),
        };
        draft.header[1] = image.version;
        draft.fit();
        draft
    }

    /// Sets the header to what the ranges and entries need.
    fn fit(&mut self) {
        let (n, m) = (self.ranges.len(), self.entries.len());
        let [total, offset] = [total_length(n, m), profile_offset(n)].map(|bytes| bytes as u32);
        let version = self.header[1];
        self.header = [FORMAT, version, total, n as u32, HEADER_BYTES as u32, m as u32, offset, 0];
    }

    fn bytes(&self) -> Vec<u8> {
        let mut words = self.header.to_vec();
        words.extend(self.ranges.iter().flat_map(|r| [r.first, r.last, r.class]));
        words.extend(self.entries.iter().flat_map(|e| [e.0, e.1]));
        words.iter().flat_map(|word| word.to_le_bytes()).collect()
    }
}

/// The bytes of an image, unchecked.
pub fn image_of(image: &Image) -> Vec<u8> {
    Draft::of(image).bytes()
}

fn version(rng: &mut Rng) -> u32 {
    let any = rng.word();
    *rng.pick(&[0, 1, 1_048_576, 1_048_577, u32::MAX, any])
}

fn class(rng: &mut Rng) -> u32 {
    START + rng.below(OTHER as usize) as u32
}

/// Adds a range, with another class if it touches its like.
fn push(rng: &mut Rng, ranges: &mut Vec<Range>, first: u32, last: u32) {
    let mut class = class(rng);
    if let Some(before) = ranges.last() {
        if before.last + 1 == first && before.class == class {
            class = class % OTHER + 1;
        }
    }
    ranges.push(Range { first, last, class });
}

fn any_role(rng: &mut Rng) -> u32 {
    role::START + rng.below(role::HASHTAG as usize) as u32
}

/// A profile of so many entries, by points of the edges and of the ranges.
fn profile(rng: &mut Rng, ranges: &[Range], m: usize) -> Profile {
    let mut points = BTreeSet::new();
    while points.len() < m {
        let point = match rng.below(3) {
            0 if !ranges.is_empty() => rng.pick(ranges).first,
            1 => rng.below(CODE_POINTS) as u32,
            _ => *rng.pick(&EDGES),
        };
        if is_scalar(point) {
            points.insert(point);
        }
    }
    let entry = |point| (point, if rng.once_in(2) { role::MEDIAL } else { any_role(rng) });
    let entries: Vec<(u32, u32)> = points.into_iter().map(entry).collect();
    Profile::of(&entries)
}

/// A small image: a few ranges between the edges.
pub fn small_image(rng: &mut Rng) -> Image {
    let sparse = 1 + rng.below(6);
    let firsts: Vec<u32> = EDGES.iter().copied().filter(|_| rng.once_in(sparse)).collect();
    let mut ranges = Vec::new();
    for (i, &first) in firsts.iter().enumerate() {
        let next = firsts.get(i + 1).copied().unwrap_or(CODE_POINTS as u32);
        let limit = if first < 0xD800 { next.min(0xD800) } else { next };
        let last = match rng.below(3) {
            0 => first,
            1 => limit - 1,
            _ => first + rng.below((limit - first) as usize) as u32,
        };
        push(rng, &mut ranges, first, last);
    }
    let m = *rng.pick(&[0, 0, 1, 2, 4, 8, 20]);
    Image { version: version(rng), profile: profile(rng, &ranges, m), ranges }
}

/// The roles, medials more often.
const ROLES: [u32; 7] = [
    role::START,
    role::NONSTART,
    role::MEDIAL,
    role::MEDIAL,
    role::MEDIAL,
    role::OTHER,
    role::HASHTAG,
];

/// An image like those in use: letters, digits, signs and blanks.
fn script_image(rng: &mut Rng) -> Image {
    let kept = USUAL.iter().filter(|_| !rng.once_in(8));
    let ranges: Vec<Range> =
        kept.map(|&(first, last, class)| Range { first, last, class }).collect();
    let points = [
        0x0A, 0x0D, 0x20, 0x2D, 0x2E, 0x31, 0x41, 0x5F, 0x85, 0xA0, 0xB7, 0x200C, 0x200F, 0x2027,
        0x2028, 0xFDD0, 0x10FFFF,
    ];
    let mut entries = Vec::new();
    for point in points {
        if rng.once_in(4) {
            entries.push((point, *rng.pick(&ROLES)));
        }
    }
    Image { version: version(rng), ranges, profile: Profile::of(&entries) }
}

/// An image of so many ranges and entries, spread over all code points.
pub fn spread_image(rng: &mut Rng, n: usize, m: usize) -> Image {
    let mut ranges: Vec<Range> = Vec::new();
    let mut next = 0;
    while ranges.len() < n {
        let (gap, more) = (rng.below(300) as u32, rng.below(200) as u32);
        let first = next + *rng.pick(&[0, 0, 1, 2, gap]);
        let last = first + *rng.pick(&[0, 0, 1, 5, more]);
        next = last + 1;
        if last >= 0xD800 && first <= 0xDFFF {
            next = 0xE000;
            continue;
        }
        push(rng, &mut ranges, first, last);
    }
    Image { version: version(rng), profile: profile(rng, &ranges, m), ranges }
}

/// The largest image.
pub fn large_image(rng: &mut Rng) -> Image {
    spread_image(rng, MAX_RANGES, MAX_ENTRIES)
}

pub fn valid_image(rng: &mut Rng) -> Image {
    match rng.below(40) {
        0 => large_image(rng),
        1 => {
            let (n, m) = (rng.below(MAX_RANGES + 1), rng.below(MAX_ENTRIES + 1));
            spread_image(rng, n, m)
        }
        2..=5 => {
            let (n, m) = (rng.below(100), rng.below(10));
            spread_image(rng, n, m)
        }
        6..=19 => small_image(rng),
        _ => script_image(rng),
    }
}

/// Code points that tags may hold by their role: line ends, a hyphen, a full stop, a blank, a letter, a mark, joiners.
const IN_TAGS: [u32; 11] =
    [0x0A, 0x0D, 0x20, 0x2D, 0x2E, 0x5F, 0x61, 0x301, 0x200D, 0x2029, 0x1F527];

/// A valid image in whose profile signs have roles of their own, and some code points role 5.
pub fn hashtag_image(rng: &mut Rng) -> Image {
    let image = valid_image(rng);
    let mut entries: BTreeMap<u32, u32> = image.profile.entries().into_iter().collect();
    let (of_signs, of_others) = (1 + rng.below(8), 1 + rng.below(8));
    for point in SIGNS {
        if rng.once_in(of_signs) {
            entries.insert(point, any_role(rng));
        }
    }
    for point in IN_TAGS {
        if rng.once_in(of_others) {
            entries.insert(point, role::HASHTAG);
        }
    }
    let entries: Vec<(u32, u32)> = entries.into_iter().take(MAX_ENTRIES).collect();
    Image { profile: Profile::of(&entries), ..image }
}

/// Code points about marks, with the class that each mostly has: line ends, a blank, signs, a digit, letters, one that
/// is Other, one that is Unassigned, marks.
pub const ABOUT_MARKS: [(u32, u32); 14] = [
    (0x0A, WHITE),
    (0x0D, WHITE),
    (0x20, WHITE),
    (0x2B, SYNTAX),
    (0x2D, SYNTAX),
    (0x2E, SYNTAX),
    (0x31, NONSTART),
    (0x61, START),
    (0x62, START),
    (0xA7, OTHER),
    (0x378, UNASSIGNED),
    (0x200E, WHITE),
    (0x200F, WHITE),
    (0x2028, WHITE),
];

/// The image of these code points, rising, with their classes.
fn image_of_points(points: &[(u32, u32)], profile: Profile) -> Image {
    let mut ranges: Vec<Range> = Vec::new();
    for &(point, class) in points {
        match ranges.last_mut() {
            Some(range) if range.last + 1 == point && range.class == class => range.last = point,
            _ if class == UNASSIGNED => {}
            _ => ranges.push(Range { first: point, last: point, class }),
        }
    }
    Image { version: 1, ranges, profile }
}

/// Two images of the code points about marks. Some have another class than they mostly have, and some a role. The newer
/// differs from the older by permitted changes.
pub fn marked_images(rng: &mut Rng) -> (Image, Image) {
    let (mut older, mut newer, mut entries) = (Vec::new(), Vec::new(), Vec::new());
    let (of_classes, of_roles) = (2 + rng.below(20), 1 + rng.below(8));
    for (point, usual) in ABOUT_MARKS {
        let (any, next) = (rng.below(6) as u32, rng.below(6) as u32);
        let class = if rng.once_in(of_classes) { any } else { usual };
        older.push((point, class));
        newer.push((point, if permitted(class, next) { next } else { class }));
        if rng.once_in(of_roles) {
            entries.push((point, *rng.pick(&ROLES)));
        }
    }
    let profile = Profile::of(&entries);
    (image_of_points(&older, profile), image_of_points(&newer, profile))
}

/// Limits of the header's words, and numbers beside them.
const ABOUT_LIMITS: [usize; 10] = [
    2,
    HEADER_BYTES - 1,
    HEADER_BYTES,
    HEADER_BYTES + 1,
    MAX_ENTRIES,
    MAX_ENTRIES + 1,
    MAX_RANGES,
    MAX_RANGES + 1,
    MAX_IMAGE,
    MAX_IMAGE + 1,
];

fn damage_header(rng: &mut Rng, draft: &mut Draft) {
    let word = &mut draft.header[rng.below(8)];
    *word = match rng.below(9) {
        0 => word.wrapping_add(1),
        1 => word.wrapping_sub(1),
        2 => 0,
        3 => u32::MAX,
        4 => *word ^ 1 << rng.below(32),
        // Counts whose multiples pass 2^32.
        5 => *rng.pick(&[357_913_942, 536_870_913, 0x8000_0000]),
        6 => *rng.pick(&ABOUT_LIMITS) as u32,
        7 => word.wrapping_add(4),
        _ => rng.word(),
    };
}

fn damage_ranges(rng: &mut Rng, draft: &mut Draft) {
    if draft.ranges.len() < 2 {
        draft.ranges = vec![
            Range { first: 0x41, last: 0x5A, class: START },
            Range { first: 0x61, last: 0x7A, class: START },
        ];
    }
    let i = 1 + rng.below(draft.ranges.len() - 1);
    let (before, surrogate) = (draft.ranges[i - 1], 0xD800 + rng.below(0x800) as u32);
    match rng.below(10) {
        0 => draft.ranges.swap(i - 1, i),
        1 => draft.ranges[i] = Range { first: before.last + 1, ..before },
        2 => draft.ranges[i].first = before.last,
        3 => draft.ranges[i].first = surrogate,
        4 => draft.ranges[i].last = surrogate,
        5 => draft.ranges[i] = Range { first: 0xD7FF, last: 0xE000, class: START },
        6 => draft.ranges[i].class = *rng.pick(&[0, 6, 7, u32::MAX]),
        7 => draft.ranges[i].last = draft.ranges[i].first.wrapping_sub(1),
        8 => draft.ranges[i].last = *rng.pick(&[0x110000, u32::MAX]),
        _ => draft.ranges[0].first = *rng.pick(&[0xD800, 0x110000, u32::MAX]),
    }
    draft.fit();
}

fn damage_profile(rng: &mut Rng, draft: &mut Draft) {
    if draft.entries.len() < 2 {
        draft.entries = vec![(0x2D, role::MEDIAL), (0x2E, role::MEDIAL), (0x5F, role::START)];
    }
    let i = 1 + rng.below(draft.entries.len() - 1);
    match rng.below(5) {
        0 => draft.entries[i].1 = *rng.pick(&[0, 6, 7, u32::MAX]),
        1 => draft.entries[i].0 = *rng.pick(&[0xD800, 0xDBFF, 0xDFFF, 0x110000, u32::MAX]),
        2 => draft.entries[i].0 = draft.entries[i - 1].0,
        3 => draft.entries.swap(i - 1, i),
        _ => draft.entries[0] = (*rng.pick(&[0, 0xD800, u32::MAX]), rng.below(7) as u32),
    }
    draft.fit();
}

/// One range or entry above the limit, all else good.
fn over_limit(rng: &mut Rng) -> Draft {
    const N: usize = MAX_RANGES;
    const M: usize = MAX_ENTRIES;
    let counts = [(N + 1, 0), (N + 1, M - 2), (N + 1, M), (10, M + 1), (N - 1, M + 1), (N, M + 1)];
    let (n, m) = *rng.pick(&counts);
    let full = spread_image(rng, n, 0);
    let mut draft = Draft::of(&full);
    draft.entries = (0..m as u32).map(|i| (0x100 + i, 1 + i % role::HASHTAG)).collect();
    draft.fit();
    draft
}

/// Lengths about the least and the most.
const LENGTHS: [usize; 9] = [
    0,
    1,
    12,
    HEADER_BYTES - 1,
    HEADER_BYTES,
    HEADER_BYTES + 1,
    MAX_IMAGE - 1,
    MAX_IMAGE,
    MAX_IMAGE + 1,
];

/// Cuts or lengthens the bytes; the header may be told.
fn damage_length(rng: &mut Rng, bytes: &mut Vec<u8>) {
    let length = match rng.below(6) {
        0 => rng.below(bytes.len()),
        1 => bytes.len() - 1,
        2 => bytes.len() + 1 + rng.below(20),
        3 => bytes.len() - *rng.pick(&[4, ENTRY_BYTES, RANGE_BYTES]),
        4 => bytes.len() + *rng.pick(&[4, ENTRY_BYTES, RANGE_BYTES]),
        _ => *rng.pick(&LENGTHS),
    };
    let fill = rng.word() as u8;
    bytes.resize(length, fill);
    if length >= 12 && rng.once_in(2) {
        bytes[8..12].copy_from_slice(&(length as u32).to_le_bytes());
    }
}

/// A valid image with one damage, sometimes more.
pub fn damaged_image(rng: &mut Rng) -> Vec<u8> {
    let mut draft = if rng.once_in(60) { over_limit(rng) } else { Draft::of(&valid_image(rng)) };
    loop {
        match rng.below(9) {
            0..=2 => damage_header(rng, &mut draft),
            3..=5 => damage_ranges(rng, &mut draft),
            6 | 7 => damage_profile(rng, &mut draft),
            _ => {
                let mut bytes = draft.bytes();
                damage_length(rng, &mut bytes);
                return bytes;
            }
        }
        if !rng.once_in(5) {
            return draft.bytes();
        }
    }
}
