//! Images of up to 512 profile entries: the library against the independent reader, against numbers written out here,
//! and beside a reader that takes 64 entries, as readers did before.

use luffinarc::{calls, MAX_ENTRIES, RANGE_WORDS, RECORD_WORDS, RUN_WORDS};
use luffinarc::{CHANGED_ENTRY_WORDS, MAX_RANGES};
use luffinarc_reader::cases::*;
use luffinarc_reader::image::{parse, parse_within, Image};
use luffinarc_reader::{role, vectors, Calls, PairRefusal, Profile, Reader, Refusal};
use luffinarc_tests::{data, runs, say, Library};

/// The most entries, and the most bytes of an image, of the older reader.
const OLDER_ENTRIES: usize = 64;
const OLDER_IMAGE: usize = 49_696;

/// What the older reader says of an image.
fn older(image: &[u8]) -> Result<Image, Refusal> {
    parse_within(OLDER_ENTRIES, image)
}

/// The three words of range i, of six code points, and the two of entry j: some entries are in a range, some in none.
fn range(i: u32) -> [u32; 3] {
    [8 * i, 8 * i + 5, 1 + i % 5]
}

fn entry(j: u32) -> [u32; 2] {
    [61 * j, 1 + j % 5]
}

/// The version of the images made here.
const VERSION: u32 = 7;

/// The image of n ranges and m entries.
fn made(n: u32, m: u32) -> Vec<u8> {
    let offset = 32 + 12 * n;
    let header = [1, VERSION, offset + 8 * m, n, 32, m, offset, 0];
    let ranges = (0..n).flat_map(range);
    let words = header.into_iter().chain(ranges).chain((0..m).flat_map(entry));
    words.flat_map(u32::to_le_bytes).collect()
}

/// The record of the first m entries.
fn profile(m: u32) -> Profile {
    Profile::of(&(0..m).map(entry).map(|[point, role]| (point, role)).collect::<Vec<_>>())
}

/// The image with another word in its header.
fn with_word(image: &[u8], at: usize, word: usize) -> Vec<u8> {
    let mut image = image.to_vec();
    image[at..at + 4].copy_from_slice(&(word as u32).to_le_bytes());
    image
}

/// The number of a refusal, 0 for none.
fn number<T>(result: &Result<T, Refusal>) -> u32 {
    result.as_ref().err().map_or(0, Refusal::number)
}

/// Check and read, with room that is exact and one word too short, are the reader's; the profile's record is so to its
/// last entry. What is read is written again to the same bytes.
fn compare_images(image: &[u8]) -> Result<(), Refusal> {
    let checked = Library.check(image);
    assert_eq!(checked, Reader.check(image));
    let ranges = checked.map_or(1, |checked| checked.ranges);
    for room in [RANGE_WORDS * ranges, (RANGE_WORDS * ranges).saturating_sub(1)] {
        let (mut words, mut expected) = (vec![7; room], vec![7; room]);
        let read = Library.read(image, &mut words);
        assert_eq!(read, Reader.read(image, &mut expected));
        assert!(words == expected);
        if let Ok(read) = read {
            let (mut out, mut again) = (vec![7; image.len() + 3], vec![7; words.len()]);
            let total = Library.write(read.version, &words, &read.profile, &mut out);
            assert_eq!(total, Ok(image.len()));
            assert!(out[..image.len()] == *image && out[image.len()..] == [7; 3]);
            assert_eq!(Library.read(&out[..image.len()], &mut again), Ok(read));
            assert!(again == words);
        }
    }
    checked.map(|_| ())
}

/// The number at a word of an image; 0 past its end.
fn word(image: &[u8], at: usize) -> u32 {
    image.get(at..at + 4).map_or(0, |bytes| u32::from_le_bytes(bytes.try_into().unwrap()))
}

/// Every entry's code point and those beside it are looked up as the reader does, and a surrogate.
fn compare_lookups(image: &[u8]) {
    let offset = word(image, 24) as usize;
    let points = (offset..image.len()).step_by(8).map(|at| word(image, at));
    for point in points.flat_map(|p| [p.saturating_sub(1), p, p + 1]).chain([0xD800, 0x10FFFF]) {
        assert_eq!(Library.lookup(image, point), Reader.lookup(image, point), "{point:X}");
    }
}

/// The pair check and the changes, of the image and another, in both orders.
fn compare_pairs(image: &[u8], other: &[u8]) {
    for (older, newer) in [(image, other), (other, image), (image, image)] {
        assert_eq!(Library.pair(older, newer), Reader.pair(older, newer));
        for (r, e) in [(3, 2), (RUN_WORDS * 16_383, CHANGED_ENTRY_WORDS * 1024)] {
            let (mut runs, mut entries) = (vec![7; r], vec![7; e]);
            let result = Library.changes(older, newer, &mut runs, &mut entries);
            let (mut all_runs, mut all_entries) = (vec![7; r], vec![7; e]);
            let expected = Reader.changes(older, newer, &mut all_runs, &mut all_entries);
            assert_eq!(result, expected);
            assert!(runs == all_runs && entries == all_entries);
        }
    }
}

/// Count, both lists, with room for all and for one word less, and one token at each of some places.
fn compare_text(image: &[u8], text: &[u8]) -> Result<usize, Refusal> {
    let count = Library.count(image, text);
    assert_eq!(count, Reader.count(image, text), "{text:02X?}");
    let exact = RECORD_WORDS * count.unwrap_or(1);
    for room in [exact, exact.saturating_sub(1), RECORD_WORDS * text.len()] {
        let (mut words, mut expected) = (vec![7; room], vec![7; room]);
        let listed = Library.list(image, text, &mut words);
        assert_eq!(listed, Reader.list(image, text, &mut expected), "{text:02X?}");
        assert!(words == expected, "{text:02X?}");
        let (mut words, mut expected) = (vec![7; room], vec![7; room]);
        let listed = Library.hashtags(image, text, &mut words);
        assert_eq!(listed, Reader.hashtags(image, text, &mut expected), "{text:02X?}");
        assert!(words == expected, "{text:02X?}");
    }
    for place in (0..=text.len() + 1).step_by(1 + text.len() / 8) {
        let taken = Library.at(image, text, place);
        assert_eq!(taken, Reader.at(image, text, place), "{text:02X?} at {place}");
    }
    count
}

/// Texts of the code points of an image, for tokens and for hashtags; of an image that is refused, any text.
fn texts(rng: &mut Rng, image: &[u8]) -> Vec<Vec<u8>> {
    match parse(image) {
        Ok(image) => {
            let tokens = (0..4).map(|_| token_text(rng, &image, 30)).collect::<Vec<_>>();
            [tokens, vec![hashtag_text(rng, &image, 30)]].concat()
        }
        Err(_) => vec![b"a = #b".to_vec()],
    }
}

/// Ranges, entries, bytes, and the answers of the library and of the older reader, 0 for accepted.
const COUNTS: [(u32, u32, usize, u32, u32); 25] = [
    (0, 0, 32, 0, 0),
    (0, 64, 544, 0, 0),
    (0, 65, 552, 0, 2),
    (0, 511, 4120, 0, 2),
    (0, 512, 4128, 0, 2),
    (0, 513, 4136, 2, 2),
    (5, 0, 92, 0, 0),
    (5, 64, 604, 0, 0),
    (5, 65, 612, 0, 2),
    (5, 511, 4180, 0, 2),
    (5, 512, 4188, 0, 2),
    (5, 513, 4196, 2, 2),
    (4094, 67, 49_696, 0, 2),
    (4095, 65, 49_692, 0, 2),
    (4095, 66, 49_700, 0, 1),
    (4095, 512, 53_268, 0, 1),
    (4095, 513, 53_276, 2, 1),
    (4096, 0, 49_184, 0, 0),
    (4096, 64, 49_696, 0, 0),
    (4096, 65, 49_704, 0, 1),
    (4096, 511, 53_272, 0, 1),
    (4096, 512, 53_280, 0, 1),
    (4096, 513, 53_288, 1, 1),
    (4097, 510, 53_276, 2, 1),
    (4097, 511, 53_284, 1, 1),
];

/// Every call on images with so many ranges and entries, and the older reader's check.
#[test]
fn counts_about_the_limits() {
    let mut rng = Rng::seeded(601);
    let mut accepted = 0;
    for (n, m, bytes, answer, of_older) in COUNTS {
        let image = made(n, m);
        assert_eq!(image.len(), bytes);
        assert_eq!(number(&compare_images(&image)), answer, "{n} ranges, {m} entries");
        assert_eq!(number(&older(&image)), of_older, "{n} ranges, {m} entries");
        compare_lookups(&image);
        compare_pairs(&image, &made(5, 512));
        for text in texts(&mut rng, &image) {
            let count = compare_text(&image, &text);
            assert_eq!(answer != 0, (1..=4).contains(&number(&count)));
            accepted += usize::from(count.is_ok());
        }
    }
    say(&format!("texts accepted under images about the limits: {accepted}"));
    assert!(accepted > 20, "{accepted}");
}

/// The largest image with a byte more or less, and with a total length that says so.
#[test]
fn bytes_about_the_most() {
    let (largest, next) = (made(4096, 512), made(4096, 511));
    let longer = [&largest[..], &[0]].concat();
    let shorter = &largest[..53_279];
    let cases = [
        (largest.clone(), 0),
        (longer.clone(), 1),
        (with_word(&longer, 8, 53_281), 1),
        (with_word(&largest, 8, 53_281), 1),
        (shorter.to_vec(), 1),
        (with_word(shorter, 8, 53_279), 2),
        (with_word(&largest, 8, 53_279), 1),
        (with_word(&largest, 20, 511), 2),
        (with_word(&largest, 20, 513), 2),
        (with_word(&[&next[..], &[0; 8]].concat(), 8, 53_280), 2),
        (with_word(&with_word(&[&next[..], &[0; 8]].concat(), 8, 53_280), 20, 512), 4),
    ];
    for (i, (image, answer)) in cases.iter().enumerate() {
        assert_eq!(number(&compare_images(image)), *answer, "case {i}");
    }
    assert_eq!(Library.check(&cases[10].0), Err(Refusal::Entry(511)));
}

/// What the older reader says, from what the library says: a longer image is refused with 1, one with more entries with
/// 2, any other as by the library.
fn older_number(image: &[u8], library: u32) -> u32 {
    match library {
        1 => 1,
        _ if image.len() > OLDER_IMAGE => 1,
        2 => 2,
        _ if word(image, 20) as usize > OLDER_ENTRIES => 2,
        same => same,
    }
}

/// An image: with any number of entries, its bytes changed at times; or a small one; or a damaged one.
fn any_image(rng: &mut Rng) -> Vec<u8> {
    match rng.below(4) {
        0 => image_of(&valid_image(rng)),
        1 => damaged_image(rng),
        _ => {
            let most = *rng.pick(&[1, 40, MAX_RANGES + 1]);
            let (n, m) = (rng.below(most), rng.below(MAX_ENTRIES + 1));
            let mut image = image_of(&spread_image(rng, n, m));
            if rng.once_in(2) {
                let (at, length) = (rng.below(32), image.len());
                let at = if rng.once_in(3) { at } else { rng.below(length) };
                image[at] ^= 1 << rng.below(8);
            }
            image
        }
    }
}

/// The library and the older reader on any images: they agree wherever the older accepts; what the library alone
/// accepts, the older refuses with 2, or with 1 where the image is longer than it took.
#[test]
fn beside_the_older_reader() {
    let (mut rng, mut tally) = (Rng::seeded(602), Tally::default());
    for i in 0..runs(3000) {
        let image = any_image(&mut rng);
        let (newer, before) = (number(&compare_images(&image)), older(&image));
        assert_eq!(number(&before), older_number(&image, newer), "{image:02X?}");
        tally.name(&format!("{}-{newer}", number(&before)));
        if let Ok(before) = &before {
            let mut words = vec![0; RANGE_WORDS * before.ranges.len()];
            let read = Library.read(&image, &mut words).unwrap();
            let ranges = before.ranges.iter().flat_map(|r| [r.first, r.last, r.class]);
            assert!(ranges.eq(words.iter().copied()));
            assert_eq!((read.version, read.profile), (before.version, before.profile));
        }
        if newer == 0 && i % 8 == 0 {
            for text in texts(&mut rng, &image) {
                let _ = compare_text(&image, &text);
            }
        }
    }
    // The older's answer and the library's, 0 for accepted.
    tally.close("older and newer", "0-0,1-0,2-0,1-1,1-2,1-3,1-4,2-2,2-3,2-4,3-3,4-4");
}

/// The words of all ranges.
fn all_ranges() -> Vec<u32> {
    (0..4096).flat_map(range).collect()
}

/// The writer writes 512 entries, and refuses a greater used length with 2: after 13, and before 3, 4 and 12.
#[test]
fn used_lengths() {
    let (words, full) = (all_ranges(), profile(512));
    let mut out = vec![7; 53_280];
    assert_eq!(Library.write(VERSION, &words, &full, &mut out), Ok(53_280));
    assert!(out == made(4096, 512));
    let mut bad_entry = full;
    bad_entry.roles[0] = 0;
    assert_eq!(Library.write(VERSION, &[], &bad_entry, &mut out), Err(Refusal::Entry(0)));
    let bad = [5, 4, 1];
    for used in [513, 514, 1000, 65_536 + 64, 0x8000_0000, u32::MAX] {
        for words in [&[][..], &words, &bad] {
            for (room, entries) in [(0, full), (4128, full), (60_000, full), (60_000, bad_entry)] {
                let mut out = vec![7; room];
                let long = Profile { used, ..entries };
                let written = Library.write(VERSION, words, &long, &mut out);
                assert_eq!(written, Err(Refusal::Header), "{used}");
                assert!(out.iter().all(|&byte| byte == 7));
            }
        }
        let long = Profile { used, ..full };
        assert_eq!(Library.write(VERSION, &bad[..2], &long, &mut []), Err(Refusal::Shape));
    }
}

/// Faults of the last entry, and a buffer that is a byte too short.
#[test]
fn the_last_entry() {
    let full = profile(512);
    for (point, role) in [(0xD800, 1), (0x110000, 1), (61 * 510, 1), (61 * 511, 0), (61 * 511, 6)] {
        let mut bad = full;
        (bad.points[511], bad.roles[511]) = (point, role);
        let mut out = vec![7; 53_280];
        let written = Library.write(VERSION, &all_ranges(), &bad, &mut out);
        assert_eq!(written, Err(Refusal::Entry(511)));
        assert!(out.iter().all(|&byte| byte == 7));
        let image = image_of(&Image { profile: bad, ..parse(&made(5, 512)).unwrap() });
        assert_eq!(compare_images(&image), Err(Refusal::Entry(511)));
        assert_eq!(Library.count(&image, b"a"), Err(Refusal::Entry(511)));
    }
    let mut out = vec![7; 53_279];
    let written = Library.write(VERSION, &all_ranges(), &full, &mut out);
    assert_eq!(written, Err(Refusal::Buffer(53_280)));
    assert!(out.iter().all(|&byte| byte == 7));
}

/// The writer does not look at entries past the used length, whatever they hold.
#[test]
fn entries_past_the_used_length() {
    for used in [0, 1, 63, 64, 65, 510, 511] {
        for fill in [0, 1, 0xD800, u32::MAX] {
            let mut filled = profile(used);
            filled.points[used as usize..].fill(fill);
            filled.roles[used as usize..].fill(fill);
            let expected = made(3, used);
            let mut out = vec![7; expected.len()];
            let words = &all_ranges()[..9];
            assert_eq!(Library.write(VERSION, words, &filled, &mut out), Ok(expected.len()));
            assert!(out == expected, "{used} {fill}");
        }
    }
}

/// After check and read the record has the entries, and zeros up to its last place.
#[test]
fn records_end_in_zeros() {
    const FULL: calls::Entries = [9; 512];
    for m in [0, 1, 63, 64, 65, 511, 512] {
        let (image, expected) = (made(4, m), profile(m));
        let (mut points, mut roles, mut answer) = (FULL, FULL, [9; 4]);
        assert_eq!(calls::check(&image, &mut points, &mut roles, &mut answer), 0);
        assert!((points, roles, answer[2]) == (expected.points, expected.roles, m.into()));
        let (mut points, mut roles, mut answer, mut words) = (FULL, FULL, [9; 4], [0; 12]);
        assert_eq!(calls::read(&image, &mut words, &mut points, &mut roles, &mut answer), 0);
        assert!((points, roles, answer[2]) == (expected.points, expected.roles, m.into()));
        for i in 0..512 {
            let [point, role] = if i < m { entry(i) } else { [0, 0] };
            assert_eq!((points[i as usize], roles[i as usize]), (point, role), "{i} of {m}");
        }
    }
}

/// The class of each of 512 entries by its role, and of the code points beside it, which are in no range.
#[test]
fn roles_of_all_entries() {
    let image = made(0, 512);
    for j in 0..512 {
        let class = match 1 + j % 5 {
            1 => 1,
            2 => 2,
            4 => 5,
            _ => 0,
        };
        assert_eq!(Library.lookup(&image, 61 * j), Ok((class, 0)), "{j}");
        assert_eq!(Library.lookup(&image, 61 * j + 1), Ok((0, 0)), "{j}");
    }
}

/// 512 letters by their role alone: a text of all is one identifier and, after a sign, one hashtag; with the 511th a
/// medial too. The next code point is in neither.
#[test]
fn a_name_of_all_entries() {
    let mut entries: Vec<(u32, u32)> = (0..512).map(|i| (0x4E00 + 2 * i, role::START)).collect();
    let made = |entries: &[(u32, u32)]| {
        image_of(&Image { version: 1, ranges: vec![], profile: Profile::of(entries) })
    };
    let name: String = entries.iter().map(|entry| char::from_u32(entry.0).unwrap()).collect();
    let tag = format!("#{name}\u{5200}");
    for last_role in [role::START, role::MEDIAL] {
        entries[510].1 = last_role;
        let (image, mut words) = (made(&entries), [7; 4]);
        assert_eq!(Library.list(&image, name.as_bytes(), &mut words), Ok(1));
        assert_eq!(words, [1, 0, 1536, 1]);
        let longer = format!("{name}\u{5200}");
        assert_eq!(Library.count(&image, longer.as_bytes()), Err(Refusal::Characters(1536)));
        assert_eq!(Library.hashtags(&image, tag.as_bytes(), &mut words), Ok(1));
        let end = if last_role == role::START { 1537 } else { 1531 };
        assert_eq!(words, [6, 0, end, 1]);
    }
    // Without the last letter the medial before it has none after it.
    let image = made(&entries[..511]);
    assert_eq!(Library.count(&image, name.as_bytes()), Err(Refusal::Characters(1530)));
}

/// The bytes of an image that stands at the front, by the total length that it says.
fn front(bytes: &[u8]) -> Option<&[u8]> {
    bytes.get(..word(bytes, 8) as usize)
}

/// Every stored image that readers took before is read and written again byte for byte.
#[test]
fn images_of_before() {
    let unicode = ["unicode-14.0", "unicode-15.0", "unicode-16.0", "unicode-17.0"];
    let names = [&["m", "m2", "scripts-16.0", "scripts-17.0"][..], &unicode].concat();
    let stored: Vec<_> = names.iter().map(|name| data(&format!("images/{name}.img"))).collect();
    let folder = concat!(env!("CARGO_MANIFEST_DIR"), "/../data/images");
    assert_eq!(std::fs::read_dir(folder).unwrap().count(), names.len());
    let in_vectors = vectors::all_bytes(32);
    let (mut images, mut others) = (0, 0);
    for bytes in stored.iter().chain(&in_vectors) {
        let image = match front(bytes) {
            Some(image) if older(image).is_ok() => image,
            _ => {
                others += 1;
                continue;
            }
        };
        let before = older(image).unwrap();
        let mut words = vec![7; RANGE_WORDS * before.ranges.len()];
        let read = Library.read(image, &mut words).unwrap();
        assert_eq!((read.version, read.profile), (before.version, before.profile));
        let mut out = vec![7; image.len()];
        let total = Library.write(read.version, &words, &read.profile, &mut out);
        assert!(total == Ok(image.len()) && out == image);
        images += 1;
    }
    say(&format!("images of before: {images} read and written again, {others} others"));
    assert!(images > 2000, "{images}");
}

/// The output of a program, which is the reader's too.
fn output(program: fn(&Library, &[u8]) -> Option<String>, reader: String, input: &[u8]) -> String {
    let output = program(&Library, input).unwrap();
    assert_eq!(output, reader);
    output
}

/// The token lister on the largest image with a text after it, and with a total length a byte longer or shorter.
#[test]
fn token_lister() {
    let list = |input: &[u8]| output(Library::lister, luffinarc_reader::lister(input), input);
    let image = made(4096, 512);
    // U+0000 is a letter, by range 0 and entry 0; U+0008 is Nonstart, U+0010 Syntax, U+0018 White.
    let input = [&image[..], b"\x00\x08\x10\x18\x00"].concat();
    let tokens = "tokens 4\nidentifier 0 2 1\nsyntax 2 3 1\nwhitespace 3 4 1\nidentifier 4 5 1\n";
    assert_eq!(list(&input), tokens);
    assert_eq!(list(&image), "tokens 0\n");
    assert_eq!(list(&with_word(&input, 8, 53_281)), "refused 1\n");
    assert_eq!(list(&with_word(&input, 8, 53_279)), "refused 2\n");
    assert_eq!(list(&image[..53_279]), "refused 1\n");
    let over = [&made(4095, 513)[..], b"\x00"].concat();
    assert_eq!(list(&over), "refused 2\n");
    assert_eq!(list(&[&made(4096, 513)[..], b"\x00"].concat()), "refused 1\n");
}

/// The change lister on two images of the most bytes, and with a total length a byte longer.
#[test]
fn change_lister() {
    let list = |input: &[u8]| {
        output(Library::change_lister, luffinarc_reader::change_lister(input), input)
    };
    let (older, newer) = most_changes();
    let (older, newer) = (image_of(&older), image_of(&newer));
    assert_eq!((older.len(), newer.len()), (53_280, 53_280));
    for (older, newer) in [(&older, &newer), (&newer, &older)] {
        assert!(list(&[&older[..], newer].concat()).starts_with("changes 16383 1024\n"));
        let longer = with_word(older, 8, 53_281);
        assert_eq!(list(&[&longer[..], newer].concat()), "refused older 1\n");
        let longer = with_word(newer, 8, 53_281);
        assert_eq!(list(&[&older[..], &longer, &[0]].concat()), "refused newer 1\n");
    }
}

/// The pair check of images with 512 entries: the same; one of another role, or missing; a permitted change.
#[test]
fn pairs_of_large_profiles() {
    let image = parse(&made(4, 512)).unwrap();
    let with_role = |j: usize| {
        let mut profile = image.profile;
        profile.roles[j] = profile.roles[j] % 5 + 1;
        image_of(&Image { profile, ..image.clone() })
    };
    let bytes = image_of(&image);
    assert_eq!(Library.pair(&bytes, &bytes), Ok(()));
    // Range 4, from 20 hex on, has class Other.
    assert_eq!(Library.pair(&bytes, &made(5, 512)), Ok(()));
    assert_eq!(Library.pair(&made(5, 512), &bytes), Err(PairRefusal::Pair(Refusal::Change(32))));
    let mut newer = image.clone();
    newer.ranges[1].class = 1;
    assert_eq!(Library.pair(&bytes, &image_of(&newer)), Ok(()));
    let unequal = Err(PairRefusal::Pair(Refusal::Profiles));
    for j in [0, 63, 64, 510, 511] {
        assert_eq!(Library.pair(&bytes, &with_role(j)), unequal, "{j}");
        assert_eq!(Library.pair(&with_role(j), &bytes), unequal, "{j}");
    }
    assert_eq!(Library.pair(&bytes, &made(4, 511)), unequal);
    assert_eq!(Library.pair(&made(4, 511), &bytes), unequal);
    assert_eq!(Library.pair(&bytes, &made(4, 513)), Err(PairRefusal::Newer(Refusal::Header)));
    assert_eq!(Library.pair(&made(4, 513), &bytes), Err(PairRefusal::Older(Refusal::Header)));
}

/// 512 entries at even code points in the older image and 512 at odd ones in the newer: 1,024 changes.
#[test]
fn changes_of_large_profiles() {
    let of = |first: u32, role: u32| {
        let entries: Vec<(u32, u32)> = (0..512).map(|i| (2 * i + first, role)).collect();
        image_of(&Image { version: 1, ranges: vec![], profile: Profile::of(&entries) })
    };
    let (older, newer) = (of(0, role::MEDIAL), of(1, role::OTHER));
    let mut entries = vec![7; 3 * 1024 + 1];
    assert_eq!(Library.changes(&older, &newer, &mut [], &mut entries), Ok((0, 1024)));
    let expected = (0..1024).flat_map(|p| if p % 2 == 0 { [p, 3, 0] } else { [p, 0, 4] });
    assert!(entries.iter().copied().eq(expected.chain([7])));
    for room in [3 * 1023, 3 * 1024 - 1, 0] {
        let mut entries = vec![7; room];
        let listed = Library.changes(&older, &newer, &mut [], &mut entries);
        assert_eq!(listed, Err(PairRefusal::Pair(Refusal::Room(1024))), "{room}");
        assert!(entries.iter().all(|&word| word == 7));
    }
    let mut one = [7; 3];
    assert_eq!(Library.changes(&older, &of(0, role::MEDIAL), &mut [], &mut one), Ok((0, 0)));
    let mut last = parse(&older).unwrap();
    last.profile.roles[511] = role::START;
    assert_eq!(Library.changes(&older, &image_of(&last), &mut [], &mut one), Ok((0, 1)));
    assert_eq!(one, [1022, role::MEDIAL, role::START]);
}
