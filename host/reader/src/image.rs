//! Class images: check, read, write, lookup and the pair check.

use crate::names::{class, role};
use crate::refusal::{PairRefusal, Refusal};
use crate::utf8::is_scalar;

/// The most ranges and profile entries of an image, and its most bytes.
pub const MAX_RANGES: usize = 4096;
pub const MAX_ENTRIES: usize = 512;
pub const MAX_IMAGE: usize = total_length(MAX_RANGES, MAX_ENTRIES);

/// The bytes of the header, of a range and of a profile entry.
pub const HEADER_BYTES: usize = 32;
pub const RANGE_BYTES: usize = 12;
pub const ENTRY_BYTES: usize = 8;

/// The format that the header's first word says.
pub const FORMAT: u32 = 1;

/// The words of a range: first, last, class.
pub const RANGE_WORDS: usize = 3;

/// The number of code points.
pub const CODE_POINTS: usize = 0x110000;

/// The bytes before the profile of an image with so many ranges.
pub const fn profile_offset(ranges: usize) -> usize {
    HEADER_BYTES + RANGE_BYTES * ranges
}

/// The bytes of an image with so many ranges and profile entries.
pub const fn total_length(ranges: usize, entries: usize) -> usize {
    profile_offset(ranges) + ENTRY_BYTES * entries
}

/// A range of code points of one class.
#[derive(Clone, Copy, Debug, PartialEq, Eq)]
pub struct Range {
    pub first: u32,
    pub last: u32,
    pub class: u32,
}

/// The profile record: room for all entries and the used length.
#[derive(Clone, Copy, Debug, PartialEq, Eq)]
pub struct Profile {
    pub points: [u32; MAX_ENTRIES],
    pub roles: [u32; MAX_ENTRIES],
    pub used: u32,
}

impl Profile {
    /// A record of these entries; those past the most have no place in it.
    pub fn of(entries: &[(u32, u32)]) -> Profile {
        let used = entries.len() as u32;
        let mut profile = Profile { points: [0; MAX_ENTRIES], roles: [0; MAX_ENTRIES], used };
        for (i, &(point, role)) in entries.iter().take(MAX_ENTRIES).enumerate() {
            profile.points[i] = point;
            profile.roles[i] = role;
        }
        profile
    }

    /// The used entries.
    pub fn entries(&self) -> Vec<(u32, u32)> {
        let used = (self.used as usize).min(MAX_ENTRIES);
        (0..used).map(|i| (self.points[i], self.roles[i])).collect()
    }
}

/// An accepted image.
#[derive(Clone, Debug, PartialEq, Eq)]
pub struct Image {
    pub version: u32,
    pub ranges: Vec<Range>,
    pub profile: Profile,
}

impl Image {
    /// The class in the ranges.
    pub fn range_class(&self, point: u32) -> u32 {
        let holds = |range: &&Range| range.first <= point && point <= range.last;
        self.ranges.iter().find(holds).map_or(class::UNASSIGNED, |range| range.class)
    }

    /// The profile's role of the code point, 0 for none.
    pub fn role(&self, point: u32) -> u32 {
        let mut used = 0..self.profile.used as usize;
        used.find(|&i| self.profile.points[i] == point).map_or(0, |i| self.profile.roles[i])
    }

    /// The class after the profile.
    pub fn class(&self, point: u32) -> u32 {
        match self.role(point) {
            role::START => class::START,
            role::NONSTART => class::NONSTART,
            role::OTHER => class::OTHER,
            _ => self.range_class(point),
        }
    }

    /// The number of ranges that the halving search looks at.
    pub fn looked_at(&self, point: u32) -> u32 {
        let (mut lo, mut hi, mut looked) = (0, self.ranges.len(), 0);
        while lo < hi {
            let middle = (lo + hi) / 2;
            let range = self.ranges[middle];
            looked += 1;
            if point < range.first {
                hi = middle;
            } else if point > range.last {
                lo = middle + 1;
            } else {
                break;
            }
        }
        looked
    }

    /// The class in the ranges of every code point.
    pub fn table(&self) -> Vec<u8> {
        let mut table = vec![class::UNASSIGNED as u8; CODE_POINTS];
        for range in &self.ranges {
            table[range.first as usize..=range.last as usize].fill(range.class as u8);
        }
        table
    }

    /// The profile's role of every code point, 0 for none.
    pub fn roles(&self) -> Vec<u8> {
        let mut roles = vec![0; CODE_POINTS];
        for (point, role) in self.profile.entries() {
            roles[point as usize] = role as u8;
        }
        roles
    }
}

/// The 32-bit words of the bytes, little-endian.
fn words_of(bytes: &[u8]) -> Vec<u32> {
    bytes.chunks_exact(4).map(|b| u32::from_le_bytes([b[0], b[1], b[2], b[3]])).collect()
}

fn good_range(range: Range, before: Option<Range>) -> bool {
    let bounds = range.first <= range.last && range.last <= 0x10FFFF;
    let surrogates = range.first <= 0xDFFF && range.last >= 0xD800;
    let class = (class::START..=class::OTHER).contains(&range.class);
    let place = match before {
        None => true,
        Some(b) => b.last < range.first && !(b.last + 1 == range.first && b.class == range.class),
    };
    bounds && !surrogates && class && place
}

/// Refuses with 3 at the first bad range.
fn check_ranges(ranges: &[Range]) -> Result<(), Refusal> {
    for i in 0..ranges.len() {
        let before = if i == 0 { None } else { Some(ranges[i - 1]) };
        if !good_range(ranges[i], before) {
            return Err(Refusal::Range(i as u64));
        }
    }
    Ok(())
}

/// Refuses with 4 at the first bad entry.
fn check_profile(entries: &[(u32, u32)]) -> Result<(), Refusal> {
    for i in 0..entries.len() {
        let (point, role) = entries[i];
        let rises = i == 0 || entries[i - 1].0 < point;
        if !(is_scalar(point) && (role::START..=role::HASHTAG).contains(&role) && rises) {
            return Err(Refusal::Entry(i as u64));
        }
    }
    Ok(())
}

/// The range count and profile count of a good header, with at most so many entries.
fn check_header(most: usize, image: &[u8]) -> Result<(usize, usize), Refusal> {
    if image.len() < HEADER_BYTES || image.len() > total_length(MAX_RANGES, most) {
        return Err(Refusal::Length);
    }
    let word = words_of(&image[..HEADER_BYTES]);
    if word[2] as usize != image.len() {
        return Err(Refusal::Length);
    }
    let (n, m) = (word[3] as usize, word[5] as usize);
    if word[0] != FORMAT || word[7] != 0 || n > MAX_RANGES || m > most {
        return Err(Refusal::Header);
    }
    let offsets = word[4] as usize == HEADER_BYTES && word[6] as usize == profile_offset(n);
    if !offsets || image.len() != total_length(n, m) {
        return Err(Refusal::Header);
    }
    Ok((n, m))
}

fn ranges_of(words: &[u32]) -> Vec<Range> {
    words
        .chunks_exact(RANGE_WORDS)
        .map(|w| Range { first: w[0], last: w[1], class: w[2] })
        .collect()
}

/// The whole image, or the first of refusals 1 to 4.
pub fn parse(image: &[u8]) -> Result<Image, Refusal> {
    parse_within(MAX_ENTRIES, image)
}

/// The same, of a reader that takes at most so many entries. No more than `MAX_ENTRIES` have room in the record.
pub fn parse_within(most: usize, image: &[u8]) -> Result<Image, Refusal> {
    assert!(most <= MAX_ENTRIES);
    let (n, _) = check_header(most, image)?;
    let words = words_of(image);
    let (front, back) = words.split_at(profile_offset(n) / 4);
    let ranges = ranges_of(&front[HEADER_BYTES / 4..]);
    let entries: Vec<(u32, u32)> = back.chunks_exact(2).map(|w| (w[0], w[1])).collect();
    check_ranges(&ranges)?;
    check_profile(&entries)?;
    Ok(Image { version: words[1], ranges, profile: Profile::of(&entries) })
}

/// What checking an image gives.
#[derive(Clone, Copy, Debug, PartialEq, Eq)]
pub struct Checked {
    pub version: u32,
    pub ranges: usize,
    pub entries: usize,
}

/// Checks an image.
pub fn check(image: &[u8]) -> Result<Checked, Refusal> {
    let image = parse(image)?;
    let entries = image.profile.used as usize;
    Ok(Checked { version: image.version, ranges: image.ranges.len(), entries })
}

/// What reading an image gives beside the ranges' words.
#[derive(Clone, Copy, Debug, PartialEq, Eq)]
pub struct Read {
    pub version: u32,
    pub ranges: usize,
    pub profile: Profile,
}

/// Reads an image; its ranges go to the lent words, three each.
pub fn read(image: &[u8], words: &mut [u32]) -> Result<Read, Refusal> {
    let image = parse(image)?;
    let ranges = image.ranges.len();
    if words.len() / RANGE_WORDS < ranges {
        return Err(Refusal::Room(ranges as u64));
    }
    for (range, record) in image.ranges.iter().zip(words.chunks_exact_mut(RANGE_WORDS)) {
        record.copy_from_slice(&[range.first, range.last, range.class]);
    }
    Ok(Read { version: image.version, ranges, profile: image.profile })
}

/// Writes an image to the lent bytes and gives its length.
pub fn write(
    version: u32,
    words: &[u32],
    profile: &Profile,
    out: &mut [u8],
) -> Result<usize, Refusal> {
    if words.len() % RANGE_WORDS != 0 {
        return Err(Refusal::Shape);
    }
    let (n, m) = (words.len() / RANGE_WORDS, profile.used as usize);
    if n > MAX_RANGES || m > MAX_ENTRIES {
        return Err(Refusal::Header);
    }
    let entries = profile.entries();
    check_ranges(&ranges_of(words))?;
    check_profile(&entries)?;
    let (offset, total) = (profile_offset(n), total_length(n, m));
    if out.len() < total {
        return Err(Refusal::Buffer(total as u64));
    }
    let header = [total, n, HEADER_BYTES, m, offset].map(|number| number as u32);
    let mut all = [&[FORMAT, version], &header[..], &[0]].concat();
    all.extend_from_slice(words);
    all.extend(entries.iter().flat_map(|&(point, role)| [point, role]));
    for (i, word) in all.iter().enumerate() {
        out[4 * i..4 * i + 4].copy_from_slice(&word.to_le_bytes());
    }
    Ok(total)
}

/// The class after the profile and the number of ranges looked at.
pub fn lookup(image: &[u8], number: u32) -> Result<(u32, u32), Refusal> {
    let image = parse(image)?;
    if !is_scalar(number) {
        return Err(Refusal::NotScalar(u64::from(number)));
    }
    Ok((image.class(number), image.looked_at(number)))
}

/// True if Table 1 of UAX #31 permits the change, or there is none.
pub fn permitted(older: u32, newer: u32) -> bool {
    let to: &[u32] = match older {
        class::UNASSIGNED => &[class::START, class::NONSTART, class::OTHER],
        class::OTHER => &[class::START, class::NONSTART],
        class::NONSTART => &[class::START],
        _ => &[],
    };
    older == newer || to.contains(&newer)
}

/// Checks that the newer image differs only by permitted changes.
pub fn pair(older: &[u8], newer: &[u8]) -> Result<(), PairRefusal> {
    let older = parse(older).map_err(PairRefusal::Older)?;
    let newer = parse(newer).map_err(PairRefusal::Newer)?;
    if older.profile.entries() != newer.profile.entries() {
        return Err(PairRefusal::Pair(Refusal::Profiles));
    }
    let (from, to) = (older.table(), newer.table());
    match (0..CODE_POINTS).find(|&point| !permitted(from[point].into(), to[point].into())) {
        Some(point) => Err(PairRefusal::Pair(Refusal::Change(point as u64))),
        None => Ok(()),
    }
}
