//! The rival and the reader agree.

use luffinarc::{
    write_image, Image, Profile, Range, Role, MAX_CHANGED_ENTRIES, MAX_RUNS, RECORD_WORDS,
};
use luffinarc_bench::changes::Changes;
use luffinarc_bench::pieces::{self, Pieces};
use luffinarc_bench::rival::{check, Refused, Tables};
use luffinarc_bench::{prose, real, texts};
use luffinarc_reader::cases::{self, Rng};
use luffinarc_reader::changes::changes_of;
use luffinarc_reader::{hashtags, kind, list, Refusal};

const IMAGE: &str = concat!(env!("CARGO_MANIFEST_DIR"), "/../data/images/unicode-16.0.img");
const OLDER: &str = concat!(env!("CARGO_MANIFEST_DIR"), "/../data/images/unicode-15.0.img");
const SCRIPTS: &str = concat!(env!("CARGO_MANIFEST_DIR"), "/../data/images/scripts-17.0.img");

/// The ranges of which the letters of the random texts are drawn.
fn letters() -> Vec<Range> {
    Image::check(&std::fs::read(OLDER).unwrap()).unwrap().ranges()
}

fn tables(image: &Image) -> Tables {
    let entries: Vec<(u32, Role)> = image.profile().entries().collect();
    Tables::new(&image.ranges(), &entries)
}

/// The 16.0 image with a profile.
fn with_profile(profile: &[(u32, Role)]) -> Vec<u8> {
    let bytes = std::fs::read(IMAGE).unwrap();
    let image = Image::check(&bytes).unwrap();
    write_image(image.version(), &image.ranges(), &Profile::new(profile)).unwrap()
}

/// The reader's list of a text.
fn read(image: &[u8], text: &[u8]) -> Result<Vec<u32>, Refusal> {
    let mut words = vec![0; RECORD_WORDS * text.len()];
    let count = list(image, text, &mut words)?;
    words.truncate(RECORD_WORDS * count);
    Ok(words)
}

/// A refusal of the rival, named as the reader's.
fn named(refused: Refused) -> Refusal {
    match refused {
        Refused::TextLength => Refusal::TextLength,
        Refused::IllFormed { place, len } => {
            Refusal::IllFormed { place: place as u64, len: len as u64 }
        }
        Refused::Characters(place) => Refusal::Characters(place as u64),
        Refused::Room(needed) => Refusal::Room(needed as u64),
        Refused::Mark(place) => Refusal::Mark(place as u64),
    }
}

/// The rival's list of a text.
fn rival(tables: &Tables, text: &[u8]) -> Result<Vec<u32>, Refusal> {
    let mut words = Vec::with_capacity(RECORD_WORDS * text.len());
    let listed = tables.list(text, &mut words);
    assert_eq!(tables.count(text), listed);
    assert_eq!(RECORD_WORDS * listed.map_err(named)?, words.len());
    Ok(words)
}

/// The rival, the library and the reader list a text alike; gives the number of its tokens.
fn agree(bytes: &[u8], name: &str, text: &str) -> usize {
    let image = Image::check(bytes).unwrap();
    let tokens = read(bytes, text.as_bytes()).unwrap_or_else(|r| panic!("{name}: {r}"));
    assert!(rival(&tables(&image), text.as_bytes()).unwrap() == tokens, "{name}");
    let mut words = vec![0; tokens.len()];
    assert_eq!(image.list(text, &mut words), Ok(tokens.len() / RECORD_WORDS), "{name}");
    assert!(words == tokens, "{name}");
    tokens.len() / RECORD_WORDS
}

/// On every text, under its profile and under others.
#[test]
fn on_the_texts() {
    let more =
        [(0x2D, Role::Medial), (0x2E, Role::Medial), (0x5F, Role::Start), (0xB7, Role::Medial)];
    for sample in texts::all(&letters()) {
        assert_eq!(sample.text.len(), texts::LENGTH);
        for profile in [&[][..], &texts::MEDIALS, &more] {
            let count = agree(&with_profile(profile), sample.name, &sample.text);
            assert!(count > 50_000, "{}: {count}", sample.name);
        }
    }
}

/// On pieces of the texts that are timed by length. They have their length, a NUL after them, and are many different ones.
#[test]
fn on_pieces() {
    let bytes = with_profile(&[]);
    let image = Image::check(&bytes).unwrap();
    let tables = tables(&image);
    for sample in &texts::all(&letters())[..4] {
        for len in pieces::LENGTHS {
            let pieces = Pieces::new(&image, &sample.text, len).unwrap();
            let all: Vec<&[u8]> = pieces.iter().collect();
            for (piece, with_nul) in all.iter().zip(pieces.with_nul()) {
                let (nul, before) = with_nul.split_last().unwrap();
                assert_eq!((piece.len(), *nul, before), (len, 0, *piece));
                let tokens = read(&bytes, piece).unwrap();
                assert!(rival(&tables, piece).unwrap() == tokens, "{piece:02X?}");
            }
            let different: std::collections::HashSet<&[u8]> = all.iter().copied().collect();
            assert_eq!(all.len(), (65536 / len).max(1));
            assert!(2 * different.len() > all.len(), "{}, {len}: {}", sample.name, different.len());
        }
        assert!(Pieces::new(&image, &sample.text, texts::LENGTH + 1).is_none());
    }
}

/// On real texts, of which few characters became blanks; and what becomes a blank.
#[test]
fn on_real_texts() {
    let bytes = std::fs::read(SCRIPTS).unwrap();
    let image = Image::check(&bytes).unwrap();
    for text in real::of_repository(&image) {
        let count = agree(&bytes, &text.name, &text.text);
        assert!(count > 100 && 10 * text.blanks < text.text.len(), "{}: {count}", text.name);
    }
    let blanks = real::readable(&image, "a.b\0 1\u{200E}é.\u{301}e\u{301}\u{FFFD}x");
    assert_eq!(blanks, ("a.b  1 é.\u{301}e\u{301} x".to_string(), 3));
    let cut = "é".repeat(texts::LENGTH);
    assert_eq!(real::readable(&image, &cut).0.len(), texts::LENGTH);
}

/// Most characters of a text of entries are entries of its profile, which changes no token.
#[test]
fn texts_of_entries() {
    for sample in &texts::profiled()[..3] {
        let text = &sample.text;
        let entry = |c: &char| sample.profile.iter().any(|entry| entry.0 == u32::from(*c));
        let (entries, all) = (text.chars().filter(entry).count(), text.chars().count());
        assert!(5 * entries > 3 * all, "{}: {entries} of {all}", sample.name);
        assert!(sample.profile.iter().all(|e| text.contains(char::from_u32(e.0).unwrap())));
        let counts =
            [sample.profile, &[]].map(|profile| agree(&with_profile(profile), sample.name, text));
        assert_eq!(counts[0], counts[1], "{}", sample.name);
        let lists =
            [sample.profile, &[]].map(|profile| read(&with_profile(profile), text.as_bytes()));
        assert!(lists[0] == lists[1], "{}", sample.name);
    }
}

/// How many blocks of 64 code points hold the entries of the two profiles that change classes.
#[test]
fn blocks_of_entries() {
    let blocks = [&texts::DENSE, &texts::SPREAD].map(|entries| {
        let mut blocks: Vec<u32> = entries.iter().map(|entry| entry.0 / 64).collect();
        blocks.dedup();
        blocks.len()
    });
    assert_eq!(blocks, [128, 328]);
}

/// The letters drawn at random have two, three and four bytes, and are of most blocks that have letters.
#[test]
fn random_letters() {
    let ranges = letters();
    for (text, least) in
        [(texts::letters_alike(&ranges), 2000), (texts::ranges_alike(&ranges), 1600)]
    {
        let mut blocks: Vec<u32> = text.chars().map(|c| u32::from(c) / 64).collect();
        blocks.sort_unstable();
        blocks.dedup();
        assert!(blocks.len() > least, "{}", blocks.len());
        assert!((2..=4).all(|len| text.chars().filter(|c| c.len_utf8() == len).count() > 1000));
    }
}

/// On short texts with marks, under images in which the same few characters have any class and role.
#[test]
fn on_marks() {
    let (mut rng, mut tally) = (Rng::seeded(501), cases::Tally::default());
    for _ in 0..400 {
        let bytes = cases::image_of(&cases::marked_images(&mut rng).0);
        let tables = tables(&Image::check(&bytes).unwrap());
        for _ in 0..150 {
            let text = cases::marked_text(&mut rng);
            let expected = read(&bytes, &text);
            tally.add(&expected);
            assert!(rival(&tables, &text) == expected, "{text:02X?} {bytes:02X?}");
        }
    }
    tally.close("rival on marks", "ok,6,7,14");
}

/// On every text of six characters from six, with a medial that is syntax, and with marks that are medials too.
#[test]
fn on_short_texts_with_marks() {
    let pieces = ["a", "1", ".", "+", " ", "\u{200E}"];
    let mut tally = cases::Tally::default();
    for profile in [&[(0x2E, Role::Medial)][..], &[(0x2E, Role::Medial), (0x200E, Role::Medial)]] {
        let bytes = with_profile(profile);
        let tables = tables(&Image::check(&bytes).unwrap());
        for number in 0..pieces.len().pow(6) {
            let piece = |i| pieces[number / pieces.len().pow(i) % pieces.len()];
            let text: String = (0..6).map(piece).collect();
            let expected = read(&bytes, text.as_bytes());
            tally.add(&expected);
            assert!(rival(&tables, text.as_bytes()) == expected, "{text:?} {profile:?}");
        }
    }
    tally.close("rival on short texts with marks", "ok,7,14");
}

/// Under their profile dotted names are identifiers, with white space between.
#[test]
fn dotted_names() {
    let text = texts::dotted();
    let tokens = read(&with_profile(&texts::MEDIALS), text.as_bytes()).unwrap();
    let of = |kind| tokens.chunks(RECORD_WORDS).filter(|token| token[0] == kind).count();
    let names = text.split_ascii_whitespace().count();
    assert_eq!((of(kind::IDENTIFIER), of(kind::SYNTAX)), (names, 0));
}

/// Short lines have 4 to 30 bytes, those of flowing text about as many; a part of them end with CR LF.
#[test]
fn short_lines() {
    let text = texts::short_lines();
    let mut lines = text.trim_end_matches(' ').split_inclusive('\n');
    assert!(lines.all(|line| (4..=30).contains(&line.len())));
    for text in [text, prose::short_lines()] {
        let [lines, windows] = ["\n", "\r\n"].map(|end| text.matches(end).count());
        assert!((10..20).contains(&(texts::LENGTH / lines)), "{lines}");
        assert!(windows > lines / 5 && windows < lines / 2, "{windows} of {lines}");
    }
}

#[test]
fn on_made_cases() {
    let mut rng = Rng::new();
    let mut accepted = 0;
    for _ in 0..1000 {
        let case = cases::count_case(&mut rng);
        let image = match Image::check(&case.image) {
            Ok(image) => image,
            Err(_) => continue,
        };
        let expected = read(&case.image, &case.text);
        accepted += usize::from(expected.is_ok());
        assert!(rival(&tables(&image), &case.text) == expected, "{case:02X?}");
    }
    assert!(accepted > 300, "{accepted}");
}

/// The rival and the reader list a text's hashtags alike in so many words; gives their number.
fn agree_on_hashtags(bytes: &[u8], text: &[u8], room: usize) -> Result<usize, Refusal> {
    let (mut words, mut expected) = (vec![7; room], vec![7; room]);
    let listed = tables(&Image::check(bytes).unwrap()).hashtags(text, &mut words).map_err(named);
    assert_eq!(listed, hashtags(bytes, text, &mut expected), "{text:02X?}, room {room}");
    assert!(words == expected, "{text:02X?}, room {room}");
    listed
}

/// On flowing text, where the library is held to the reader too.
#[test]
fn on_hashtags() {
    for sample in prose::all() {
        assert_eq!(sample.text.len(), texts::LENGTH);
        let (bytes, text) = (with_profile(sample.profile), sample.text.as_bytes());
        let mut words = vec![7; RECORD_WORDS * text.len()];
        let count = hashtags(&bytes, text, &mut words).unwrap();
        assert_eq!(agree_on_hashtags(&bytes, text, RECORD_WORDS * count), Ok(count));
        let mut listed = vec![7; words.len()];
        let image = Image::check(&bytes).unwrap();
        assert_eq!(image.list_hashtags(text, &mut listed), Ok(count));
        assert!(listed == words, "{}", sample.name);
        let dense = sample.name == "dense in tags";
        let apart = if dense { 8..16 } else { 200..300 };
        assert!(apart.contains(&(text.len() / count)), "{}: {count} tags", sample.name);
    }
}

#[test]
fn on_made_hashtags() {
    let (mut rng, mut found) = (Rng::new(), 0);
    for _ in 0..1000 {
        let case = cases::hashtag_case(&mut rng);
        if Image::check(&case.image).is_ok() {
            let listed = agree_on_hashtags(&case.image, &case.text, case.room);
            found += usize::from(listed.map_or(false, |count| count > 0));
        }
    }
    assert!(found > 200, "{found}");
}

/// The rival and the reader list the same changes, or both none; gives the numbers of runs and of entries.
fn agree_on_changes(list: &mut Changes, older: &[u8], newer: &[u8]) -> Option<(usize, usize)> {
    let counts = list.list(older, newer);
    let expected = changes_of(older, newer).ok();
    assert_eq!(counts, expected.as_ref().map(|(runs, entries)| (runs.len(), entries.len())));
    if let Some((runs, entries)) = expected {
        assert!(list.runs == runs && list.entries == entries, "{older:02X?} {newer:02X?}");
    }
    counts
}

#[test]
fn on_changes() {
    let (mut rng, mut list, mut accepted) = (Rng::new(), Changes::default(), 0);
    for _ in 0..1000 {
        let case = cases::pair_case(&mut rng);
        accepted += usize::from(agree_on_changes(&mut list, &case.older, &case.newer).is_some());
    }
    assert!(accepted > 300, "{accepted}");
    let (older, newer) = cases::most_changes();
    let most = agree_on_changes(&mut list, &cases::image_of(&older), &cases::image_of(&newer));
    assert_eq!(most, Some((MAX_RUNS, MAX_CHANGED_ENTRIES)));
    let images = ["14.0", "15.0", "16.0", "17.0"]
        .map(|version| std::fs::read(IMAGE.replace("16.0", version)).unwrap());
    for older in &images {
        for newer in &images {
            assert!(agree_on_changes(&mut list, older, newer).is_some());
        }
    }
}

#[test]
fn on_checks() {
    let mut rng = Rng::new();
    for _ in 0..4000 {
        let case = cases::check_case(&mut rng);
        let expected = luffinarc_reader::check(&case.image).ok().map(|checked| checked.ranges);
        assert!(check(&case.image) == expected, "{case:02X?}");
    }
}
