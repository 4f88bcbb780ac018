//! The readings that docs/CASES.md gives of the small images M and M2.

use luffinarc_reader::changes::changes_of;
use luffinarc_reader::class::{NONSTART, OTHER, START, SYNTAX, WHITE};
use luffinarc_reader::image::{
    parse, parse_within, profile_offset, Image, MAX_ENTRIES, MAX_IMAGE, MAX_RANGES, RANGE_BYTES,
};
use luffinarc_reader::lister::MAX_SCRIPT;
use luffinarc_reader::record::RECORD_WORDS;
use luffinarc_reader::token::MAX_TEXT;
use luffinarc_reader::*;

/// The ranges of M.
#[rustfmt::skip]
const SMALL: [u32; 15] = [
    0x20, 0x20, WHITE,
    0x2E, 0x2E, SYNTAX,
    0x30, 0x39, NONSTART,
    0x41, 0x5A, START,
    0x61, 0x7A, START,
];

/// The version word of M and M2.
const VERSION: u32 = 1_048_576;

fn image(version: u32, words: &[u32], entries: &[(u32, u32)]) -> Vec<u8> {
    let mut out = vec![0; MAX_IMAGE];
    let total = write(version, words, &Profile::of(entries), &mut out).unwrap();
    out.truncate(total);
    out
}

fn m() -> Vec<u8> {
    image(VERSION, &SMALL, &[(0x2E, role::MEDIAL)])
}

fn m2() -> Vec<u8> {
    let words = [&SMALL[..], &[0xE9, 0xE9, START]].concat();
    image(VERSION, &words, &[(0x2E, role::MEDIAL)])
}

fn tokens(image: &[u8], text: &[u8]) -> Result<Vec<u32>, Refusal> {
    let mut words = vec![0; RECORD_WORDS * text.len()];
    let n = list(image, text, &mut words)?;
    assert_eq!(count(image, text), Ok(n));
    Ok(words[..RECORD_WORDS * n].to_vec())
}

#[test]
fn readings() {
    assert_eq!(m().len(), 100);
    assert_eq!(m2().len(), 112);
    let accepted: [(&[u8], &[u32]); 5] = [
        (b"", &[]),
        (b"ab.c1 .", &[1, 0, 5, 1, 3, 5, 6, 1, 2, 6, 7, 1]),
        (b"a.", &[1, 0, 1, 1, 2, 1, 2, 1]),
        (b"a..b", &[1, 0, 1, 1, 2, 1, 2, 1, 2, 2, 3, 1, 1, 3, 4, 1]),
        (b".a", &[2, 0, 1, 1, 1, 1, 2, 1]),
    ];
    for (text, list) in accepted {
        assert_eq!(tokens(&m(), text), Ok(list.to_vec()));
    }
    let refused: [(&[u8], Refusal); 3] = [
        (b"1a", Refusal::Characters(0)),
        (b"a 1", Refusal::Characters(2)),
        (b"\x61\xC3\xA9", Refusal::Characters(1)),
    ];
    for (text, refusal) in refused {
        assert_eq!(tokens(&m(), text), Err(refusal));
    }
    assert_eq!(tokens(&m2(), b"\x61\xC3\xA9"), Ok(vec![1, 0, 3, 1]));
    assert_eq!(list(&m(), b"ab.c1 .", &mut [0; 11]), Err(Refusal::Room(3)));
}

/// M with line ends as white space but for LS, which is syntax, and with a profile.
fn k(entries: &[(u32, u32)]) -> Vec<u8> {
    let ends = [0x0A, 0x0D, WHITE, 0x20, 0x20, WHITE, 0x2E, 0x2E, SYNTAX, 0x30, 0x39, NONSTART];
    let letters = [0x41, 0x5A, START, 0x61, 0x7A, START, 0x85, 0x85, WHITE];
    let separators = [0x2028, 0x2028, SYNTAX, 0x2029, 0x2029, WHITE];
    image(VERSION, &[&ends[..], &letters, &separators].concat(), entries)
}

#[test]
fn lines() {
    let plain: [(&str, &[u32]); 8] = [
        ("a\r\nb", &[1, 0, 1, 1, 4, 1, 3, 1, 1, 3, 4, 2]),
        ("\r\r\na", &[4, 0, 3, 1, 1, 3, 4, 3]),
        ("\n\ra", &[4, 0, 2, 1, 1, 2, 3, 3]),
        ("\x0B\x0C\u{85}\u{2029}a", &[4, 0, 7, 1, 1, 7, 8, 5]),
        ("\u{2028}a", &[2, 0, 3, 1, 1, 3, 4, 2]),
        ("\u{2028}\n", &[2, 0, 3, 1, 4, 3, 4, 2]),
        ("a\r", &[1, 0, 1, 1, 4, 1, 2, 1]),
        ("\r \n  ", &[4, 0, 1, 1, 3, 1, 2, 2, 4, 2, 3, 2, 3, 3, 5, 3]),
    ];
    for (text, list) in plain {
        assert_eq!(tokens(&k(&[]), text.as_bytes()), Ok(list.to_vec()), "{text:?}");
    }
    let start = k(&[(0x0A, role::START)]);
    assert_eq!(tokens(&start, b"\r\nb "), Ok(vec![4, 0, 1, 1, 1, 1, 3, 1, 3, 3, 4, 2]));
    assert_eq!(tokens(&start, b"a\nb "), Ok(vec![1, 0, 3, 1, 3, 3, 4, 2]));
    let medial = k(&[(0x0D, role::MEDIAL)]);
    assert_eq!(tokens(&medial, b"a\rb\n."), Ok(vec![1, 0, 3, 1, 4, 3, 4, 2, 2, 4, 5, 3]));
    assert_eq!(tags(&start, b"#a\r\n#b\r#c"), [6, 0, 2, 1, 6, 7, 9, 3]);
    let tagged = k(&[(0x0A, role::HASHTAG)]);
    assert_eq!(tags(&tagged, b"#a\nb \r\n.#c"), [6, 0, 4, 1, 6, 8, 10, 3]);
}

/// M with line ends and marks as white space, and with a profile.
fn with_marks(entries: &[(u32, u32)]) -> Vec<u8> {
    let words = [&[0x0A, 0x0D, WHITE], &SMALL[..], &[0x200E, 0x200F, WHITE]].concat();
    image(VERSION, &words, entries)
}

#[test]
fn marks() {
    let k = with_marks(&[(0x2E, role::MEDIAL)]);
    let refused =
        [("a\u{200E}b", 1), ("a\u{200E}\u{200F}b", 1), ("a\u{200E}.b", 1), ("a.\u{200E}b", 2)];
    for (text, place) in refused {
        assert_eq!(tokens(&k, text.as_bytes()), Err(Refusal::Mark(place)), "{text:?}");
    }
    let accepted: [(&str, &[u32]); 6] = [
        (".\u{200E}b", &[2, 0, 1, 1, 5, 1, 4, 1, 1, 4, 5, 1]),
        ("a\u{200E}.", &[1, 0, 1, 1, 5, 1, 4, 1, 2, 4, 5, 1]),
        ("\u{200E}a\u{200E}", &[5, 0, 3, 1, 1, 3, 4, 1, 5, 4, 7, 1]),
        ("a \u{200E}b", &[1, 0, 1, 1, 3, 1, 2, 1, 5, 2, 5, 1, 1, 5, 6, 1]),
        (" \n\u{200E} ", &[3, 0, 1, 1, 4, 1, 2, 1, 5, 2, 5, 2, 3, 5, 6, 2]),
        ("a\u{200E}.\u{200E}b", &[1, 0, 1, 1, 5, 1, 4, 1, 2, 4, 5, 1, 5, 5, 8, 1, 1, 8, 9, 1]),
    ];
    for (text, list) in accepted {
        assert_eq!(tokens(&k, text.as_bytes()), Ok(list.to_vec()), "{text:?}");
    }
    let characters = [("a\u{200E}1", 4), ("a\u{200E}.1", 5), ("a\u{200E}b%", 5)];
    for (text, place) in characters {
        assert_eq!(tokens(&k, text.as_bytes()), Err(Refusal::Characters(place)), "{text:?}");
    }
    let taken = Token { kind: kind::MARK, start: 1, end: 4 };
    assert_eq!(at(&k, "a\u{200E}b".as_bytes(), 1), Ok(Some(taken)));
    assert_eq!(list(&k, "a\u{200E}b".as_bytes(), &mut []), Err(Refusal::Mark(1)));
    let medial = with_marks(&[(0x2E, role::MEDIAL), (0x200E, role::MEDIAL)]);
    assert_eq!(tokens(&medial, "a\u{200E}b".as_bytes()), Ok(vec![1, 0, 5, 1]));
    assert_eq!(tokens(&medial, "a\u{200E}\u{200E}b".as_bytes()), Err(Refusal::Mark(1)));
}

/// Refusal 6: bytes, the place and the length of the maximal subpart there.
const ILL_FORMED: [(&[u8], u64, u64); 13] = [
    (b"\x61\xF0\x9F\x98", 1, 3),
    (b"\x61\xF0\x9F\x98\x41", 1, 3),
    (b"\x61\xE2\x82", 1, 2),
    (b"\xC0\x80", 0, 1),
    (b"\xE0\x80\x80", 0, 1),
    (b"\xED\xA0\x80", 0, 1),
    (b"\x61\xED\xA0\x80", 1, 1),
    (b"\xF4\x90\x80\x80", 0, 1),
    (b"\xFF", 0, 1),
    (b"\x80", 0, 1),
    (b"\xF0\x8F", 0, 1),
    (b"\xE1\x80\xE1", 0, 2),
    (b"\x30\xC3\xA9\xF4\x90\x80\x80\x61", 3, 1),
];

#[test]
fn ill_formed() {
    for (text, place, len) in ILL_FORMED {
        let refused = Refusal::IllFormed { place, len };
        assert_eq!(tokens(&m(), text), Err(refused), "{text:02X?}");
        assert_eq!(at(&m(), text, place as usize), Err(refused), "{text:02X?}");
        let output = format!("refused 6 {place} {len}\n");
        assert_eq!(lister(&[&m()[..], text].concat()), output, "{text:02X?}");
    }
    // A place inside a sequence, and one before more that is ill-formed.
    let inside = Refusal::IllFormed { place: 1, len: 1 };
    assert_eq!(at(&m2(), b"\xC3\xA9", 1), Err(inside));
    assert_eq!(at(&m(), b"\x61\xE2\x82", 0), Ok(Some(Token { kind: 1, start: 0, end: 1 })));
}

/// The files of the small images hold them.
#[test]
fn small_image_files() {
    let read = |name: &str| {
        let folder = concat!(env!("CARGO_MANIFEST_DIR"), "/../data/images/");
        std::fs::read(format!("{folder}{name}")).unwrap()
    };
    assert!(read("m.img") == m());
    assert!(read("m2.img") == m2());
}

/// The hashtags of a text.
fn tags(image: &[u8], text: &[u8]) -> Vec<u32> {
    let mut words = vec![0; RECORD_WORDS * text.len()];
    let n = hashtags(image, text, &mut words).unwrap();
    words[..RECORD_WORDS * n].to_vec()
}

/// M with 5F as part of hashtags.
fn p() -> Vec<u8> {
    image(VERSION, &SMALL, &[(0x2E, role::MEDIAL), (0x5F, role::HASHTAG)])
}

#[test]
fn tagged_texts() {
    let cases: [(&[u8], &[u32]); 9] = [
        (b"", &[]),
        (b"##a", &[6, 1, 3, 1]),
        (b"#1.x", &[6, 0, 2, 1]),
        (b"#_ _#a", &[6, 0, 2, 1]),
        (b"#a#b", &[6, 0, 2, 1]),
        (b"a.#b #", &[6, 2, 4, 1]),
        (b"a#b", &[]),
        (b"%#a%", &[6, 1, 3, 1]),
        (b"\xEF\xBC\x83a \xEF\xB9\x9F1", &[6, 0, 4, 1, 6, 5, 9, 1]),
    ];
    for (text, expected) in cases {
        assert_eq!(tags(&p(), text), expected, "{text:02X?}");
    }
    let sign = image(VERSION, &SMALL, &[(0x23, role::NONSTART)]);
    assert_eq!(tags(&sign, b"##a"), [6, 1, 3, 1]);
    assert_eq!(hashtags(&p(), b"#a #b", &mut [0; 7]), Err(Refusal::Room(2)));
    let ill_formed = Refusal::IllFormed { place: 2, len: 2 };
    assert_eq!(hashtags(&p(), b"#a\xE2\x82", &mut []), Err(ill_formed));
}

/// Role 5 keeps the class of the range for lookup and tokens, and makes no medial.
#[test]
fn hashtag_roles() {
    assert_eq!(lookup(&p(), 0x5F), Ok((class::UNASSIGNED, 3)));
    assert_eq!(tokens(&p(), b"_"), Err(Refusal::Characters(0)));
    assert_eq!(tokens(&p(), b"a_b"), Err(Refusal::Characters(1)));
    let words = [&SMALL[..12], &[0x5F, 0x5F, SYNTAX], &SMALL[12..]].concat();
    let syntax = image(VERSION, &words, &[(0x5F, role::HASHTAG)]);
    assert_eq!(tokens(&syntax, b"a_b"), Ok(vec![1, 0, 1, 1, 2, 1, 2, 1, 1, 2, 3, 1]));
    assert_eq!(pair(&m(), &p()), Err(PairRefusal::Pair(Refusal::Profiles)));
    assert_eq!(changed(&m(), &p()), (vec![], vec![0x5F, 0, role::HASHTAG]));
}

#[test]
fn lookups_and_pairs() {
    let looked: Vec<u32> = [0x20, 0x2E, 0x7A].map(|p| lookup(&m(), p).unwrap().1).to_vec();
    assert_eq!(looked, [3, 2, 2]);
    assert_eq!(pair(&m(), &m2()), Ok(()));
    assert_eq!(pair(&m2(), &m()), Err(PairRefusal::Pair(Refusal::Change(0xE9))));
}

/// The runs and the entries that changed, as words.
fn changed(older: &[u8], newer: &[u8]) -> (Vec<u32>, Vec<u32>) {
    let (runs, entries) = changes_of(older, newer).unwrap();
    (runs.concat(), entries.concat())
}

#[test]
fn changed_images() {
    assert_eq!(changed(&m(), &m2()), (vec![0xE9, 0xE9, 0, START], vec![]));
    assert_eq!(changed(&m2(), &m()), (vec![0xE9, 0xE9, START, 0], vec![]));
    let older = image(1, &[0x41, 0x42, NONSTART], &[]);
    let newer = image(2, &[0x41, 0x41, START, 0x42, 0x42, OTHER], &[]);
    let runs = vec![0x41, 0x41, NONSTART, START, 0x42, 0x42, NONSTART, OTHER];
    assert_eq!(changed(&older, &newer), (runs, vec![]));
    let edges = image(1, &[0xD7FF, 0xD7FF, OTHER, 0xE000, 0xE000, OTHER], &[]);
    let runs = vec![0xD7FF, 0xD7FF, 0, OTHER, 0xE000, 0xE000, 0, OTHER];
    assert_eq!(changed(&image(1, &[], &[]), &edges), (runs, vec![]));
    let older = image(1, &[], &[(0x2E, role::MEDIAL), (0x5F, role::START)]);
    let roles = [(0x2D, role::NONSTART), (0x2E, role::MEDIAL), (0x5F, role::NONSTART)];
    let entries = vec![0x2D, 0, role::NONSTART, 0x5F, role::START, role::NONSTART];
    assert_eq!(changed(&older, &image(1, &[], &roles)), (vec![], entries));
    let refused = Err(PairRefusal::Pair(Refusal::Room(1)));
    assert_eq!(changes(&m(), &m2(), &mut [0; 3], &mut []), refused);
}

#[test]
fn change_lister_output() {
    let both = [m(), m2()].concat();
    assert_eq!(change_lister(&both), "changes 1 0\nclass 233 233 0 1\n");
    assert_eq!(change_lister(&m()), "refused newer 1\n");
    assert_eq!(change_lister(&m()[..99]), "refused older 1\n");
    assert_eq!(change_lister(&[&both[..], b"a"].concat()), "refused newer 1\n");
}

#[test]
fn counts_at_their_limits() {
    let mut huge = m();
    huge[12..16].copy_from_slice(&357_913_942u32.to_le_bytes());
    assert_eq!(check(&huge), Err(Refusal::Header));
    huge[8] = 101;
    assert_eq!(check(&huge), Err(Refusal::Length));
    let most = MAX_RANGES as u32;
    let words: Vec<u32> = (0..most).flat_map(|i| [2 * i, 2 * i, START]).collect();
    let full = image(0, &words, &[]);
    assert_eq!(check(&full).unwrap().ranges, MAX_RANGES);
    let mut over = full.clone();
    over.extend([2 * most, 2 * most, START].map(u32::to_le_bytes).concat());
    let total = profile_offset(MAX_RANGES + 1) as u32;
    assert_eq!(over.len(), full.len() + RANGE_BYTES);
    over[8..12].copy_from_slice(&total.to_le_bytes());
    over[12..16].copy_from_slice(&(most + 1).to_le_bytes());
    over[24..28].copy_from_slice(&total.to_le_bytes());
    assert_eq!(check(&over), Err(Refusal::Header));
}

/// The limit of entries bears on 1 and 2 alone: an image is refused by its length, else by its count.
#[test]
fn limits_of_entries() {
    assert_eq!((MAX_ENTRIES, MAX_IMAGE), (512, 53_280));
    let words: Vec<u32> = (0..MAX_RANGES as u32).flat_map(|i| [2 * i, 2 * i, START]).collect();
    let made = |words: &[u32], m: u32| {
        image(1, words, &(0..m).map(|i| (3 * i, role::MEDIAL)).collect::<Vec<_>>())
    };
    let cases = [(0, 64, 544, 0), (0, 65, 552, 2), (4096, 64, 49_696, 0), (4096, 65, 49_704, 1)];
    for (n, m, bytes, of_64) in cases {
        let image = made(&words[..3 * n], m);
        assert_eq!(image.len(), bytes);
        let number = |read: &Result<Image, Refusal>| read.as_ref().err().map_or(0, Refusal::number);
        assert_eq!(number(&parse_within(64, &image)), of_64);
        let read = parse(&image);
        assert_eq!(number(&read), 0);
        assert_eq!(parse_within(m as usize, &image), read);
    }
    let long = Profile { used: 513, ..Profile::of(&[]) };
    assert_eq!(write(1, &[], &long, &mut [0; 9000]), Err(Refusal::Header));
}

#[test]
fn lister_output() {
    let good = [&m()[..], b"ab.c1 ."].concat();
    assert_eq!(lister(&good), "tokens 3\nidentifier 0 5 1\nwhitespace 5 6 1\nsyntax 6 7 1\n");
    assert_eq!(lister(&[&m()[..], b"a 1"].concat()), "refused 7 2\n");
    let k = with_marks(&[]);
    let kinds = "tokens 4\nwhitespace 0 1 1\nlineend 1 2 1\nmark 2 5 2\nidentifier 5 6 2\n";
    assert_eq!(lister(&[&k[..], " \n\u{200E}a".as_bytes()].concat()), kinds);
    assert_eq!(lister(&[&k[..], "a\u{200E}a".as_bytes()].concat()), "refused 14 1\n");
    let long = [&m()[..], &[b'a'; MAX_SCRIPT]].concat();
    assert_eq!(lister(&long), format!("tokens 1\nidentifier 0 {MAX_SCRIPT} 1\n"));
    assert_eq!(lister(&[&long[..], b"a"].concat()), "refused 5\n");
}

#[test]
fn text_limit() {
    let text = vec![b'a'; MAX_TEXT + 1];
    assert_eq!(count(&m(), &text[1..]), Ok(1));
    assert_eq!(count(&m(), &text), Err(Refusal::TextLength));
    assert_eq!(at(&m(), &text, 2 * MAX_TEXT), Err(Refusal::TextLength));
    assert_eq!(hashtags(&m(), &text[1..], &mut []), Ok(0));
    assert_eq!(hashtags(&m(), &text, &mut []), Err(Refusal::TextLength));
}

#[test]
fn unicode_images() {
    let read = |v: &str| {
        let folder = concat!(env!("CARGO_MANIFEST_DIR"), "/../data/images/unicode-");
        std::fs::read(format!("{folder}{v}.img")).unwrap()
    };
    let images = ["14.0", "15.0", "16.0", "17.0"].map(read);
    for two in images.windows(2) {
        assert_eq!(pair(&two[0], &two[1]), Ok(()));
        assert!(matches!(pair(&two[1], &two[0]), Err(PairRefusal::Pair(Refusal::Change(_)))));
    }
}
