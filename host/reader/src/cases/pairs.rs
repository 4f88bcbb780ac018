//! A newer image made from an older one.

use super::Rng;
use crate::image::{Image, Profile, Range, CODE_POINTS, MAX_ENTRIES, MAX_RANGES};
use crate::names::{class, role};
use crate::utf8::is_scalar;

/// The classes that Table 1 permits a class to become.
fn permitted_classes(class: u8) -> &'static [u32] {
    match class.into() {
        class::UNASSIGNED => &[class::START, class::NONSTART, class::OTHER],
        class::OTHER => &[class::START, class::NONSTART],
        class::NONSTART => &[class::START],
        _ => &[],
    }
}

/// The longest ranges of one class in a table of all code points.
fn ranges_of(table: &[u8]) -> Vec<Range> {
    let mut ranges: Vec<Range> = Vec::new();
    for (point, &class) in table.iter().enumerate() {
        let (point, class) = (point as u32, u32::from(class));
        match ranges.last_mut() {
            Some(range) if range.last + 1 == point && range.class == class => range.last = point,
            _ if class == class::UNASSIGNED || !is_scalar(point) => {}
            _ => ranges.push(Range { first: point, last: point, class }),
        }
    }
    ranges
}

/// A run of code points: about a range's edge, or anywhere.
fn run(rng: &mut Rng, image: &Image) -> std::ops::Range<usize> {
    let first = match rng.below(4) {
        0 if !image.ranges.is_empty() => rng.pick(&image.ranges).first,
        1 if !image.ranges.is_empty() => rng.pick(&image.ranges).last,
        2 if !image.ranges.is_empty() => rng.pick(&image.ranges).last + 1,
        _ => *rng.pick(&[0x2F, 0x41, 0xE9, 0x378, 0xD7FF, 0xE000, 0x10FFFF]),
    } as usize;
    let length = *rng.pick(&[1, 1, 2, 10, 3000]);
    first..(first + length).min(CODE_POINTS)
}

/// The image with another table, unless that needs too many ranges.
fn with_table(rng: &mut Rng, image: &Image, mut table: Vec<u8>) -> Image {
    table[0xD800..0xE000].fill(class::UNASSIGNED as u8);
    let ranges = ranges_of(&table);
    let ranges = if ranges.len() > MAX_RANGES { image.ranges.clone() } else { ranges };
    let version = image.version.wrapping_add(rng.below(3) as u32);
    Image { version, ranges, profile: image.profile }
}

/// The image with some runs changed as Table 1 permits.
pub fn permitted_changes(rng: &mut Rng, image: &Image) -> Image {
    let mut table = image.table();
    for _ in 0..1 + rng.below(4) {
        let choice = rng.below(3);
        for point in run(rng, image) {
            let classes = permitted_classes(table[point]);
            if !classes.is_empty() {
                table[point] = classes[choice % classes.len()] as u8;
            }
        }
    }
    with_table(rng, image, table)
}

/// The image with permitted changes and one run that gets any class.
pub fn forbidden_change(rng: &mut Rng, image: &Image) -> Image {
    let mut table = image.table();
    if rng.once_in(2) {
        table = permitted_changes(rng, image).table();
    }
    let class = rng.below(6) as u8;
    let run = run(rng, image);
    table[run].fill(class);
    with_table(rng, image, table)
}

/// The image with a profile entry added, taken out or changed.
pub fn unequal_profile(rng: &mut Rng, image: &Image) -> Image {
    let mut entries = image.profile.entries();
    let choice = if entries.is_empty() { 0 } else { rng.below(3) };
    let i = rng.below(entries.len().max(1));
    match choice {
        1 => drop(entries.remove(i)),
        2 => entries[i].1 = entries[i].1 % role::HASHTAG + 1,
        _ if entries.len() == MAX_ENTRIES => drop(entries.pop()),
        _ if entries.last().map_or(false, |entry| entry.0 == 0x10FFFF) => drop(entries.pop()),
        _ => entries.push((0x10FFFF, 1 + rng.below(role::HASHTAG as usize) as u32)),
    }
    Image { profile: Profile::of(&entries), ..image.clone() }
}

/// Two images with the most runs and the most changed entries between them.
pub fn most_changes() -> (Image, Image) {
    let image = |first: u32, class, point: u32, role| {
        let range = |i| Range { first: 4 * i + first, last: 4 * i + first + 2, class };
        let entries: Vec<(u32, u32)> =
            (0..MAX_ENTRIES as u32).map(|i| (2 * i + point, role)).collect();
        let ranges = (0..MAX_RANGES as u32).map(range).collect();
        Image { version: 1, ranges, profile: Profile::of(&entries) }
    };
    (image(0, class::START, 0, role::START), image(2, class::NONSTART, 1, role::HASHTAG))
}
