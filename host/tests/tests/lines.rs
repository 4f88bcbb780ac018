//! The lines of tokens and of hashtags: against the independent reader, against lines counted by bytes, and against
//! lists spelled out.

use luffinarc::{Image, HASHTAG_KIND, MAX_TEXT, RECORD_WORDS};
use luffinarc_reader::cases::*;
use luffinarc_reader::image::{Image as Made, Range};
use luffinarc_reader::{class, role, utf8, Calls, Profile, Reader, Refusal};
use luffinarc_tests::{data, runs, say, Library};

const RUNS: usize = 3000;

/// The line ends in bytes. CR LF comes before CR, so that it is taken as one.
const LINE_ENDS: [&[u8]; 8] =
    [b"\r\n", b"\n", b"\x0B", b"\x0C", b"\r", b"\xC2\x85", b"\xE2\x80\xA8", b"\xE2\x80\xA9"];

/// The line of each byte of a text, by its bytes alone.
fn lines_by_bytes(text: &[u8]) -> Vec<u32> {
    let mut lines = Vec::with_capacity(text.len());
    let mut line = 1;
    while lines.len() < text.len() {
        let end = LINE_ENDS.iter().find(|end| text[lines.len()..].starts_with(end));
        let length = end.map_or(1, |end| end.len());
        lines.resize(lines.len() + length, line);
        line += u32::from(end.is_some());
    }
    lines
}

/// The words of a list, by the library's call and the reader's. It is given as much room as it needs, and refused with
/// a word less; its lines are those counted by bytes.
fn listed(
    text: &[u8],
    library: impl Fn(&mut [u32]) -> Result<usize, Refusal>,
    reader: impl Fn(&mut [u32]) -> Result<usize, Refusal>,
) -> Result<Vec<u32>, Refusal> {
    let room = RECORD_WORDS * text.len();
    let (mut words, mut expected) = (vec![7; room], vec![7; room]);
    let result = library(&mut words);
    assert_eq!(result, reader(&mut expected), "{text:02X?}");
    assert!(words == expected, "{text:02X?}");
    let count = result?;
    words.truncate(RECORD_WORDS * count);
    if count > 0 {
        let mut lent = vec![7; words.len()];
        let few = &mut lent[1..];
        assert_eq!(library(few), Err(Refusal::Room(count as u64)), "{text:02X?}");
        assert!(few.iter().all(|&word| word == 7), "{text:02X?}");
        assert_eq!(library(&mut lent), Ok(count), "{text:02X?}");
        assert!(lent == words, "{text:02X?}");
    }
    let lines = lines_by_bytes(text);
    for record in words.chunks(RECORD_WORDS) {
        assert_eq!(record[3], lines[record[1] as usize], "{text:02X?}, {record:?}");
    }
    Ok(words)
}

fn tokens(image: &[u8], text: &[u8]) -> Result<Vec<u32>, Refusal> {
    listed(text, |words| Library.list(image, text, words), |words| Reader.list(image, text, words))
}

fn tags(image: &[u8], text: &[u8]) -> Vec<u32> {
    let library = |words: &mut [u32]| Library.hashtags(image, text, words);
    listed(text, library, |words| Reader.hashtags(image, text, words)).unwrap()
}

/// The lines of the records.
fn lines(words: &[u32]) -> Vec<u32> {
    words.chunks(RECORD_WORDS).map(|record| record[3]).collect()
}

fn made(ranges: &[(u32, u32, u32)], entries: &[(u32, u32)]) -> Vec<u8> {
    let range = |&(first, last, class)| Range { first, last, class };
    let ranges = ranges.iter().map(range).filter(|range| range.class != class::UNASSIGNED);
    image_of(&Made { version: 1, ranges: ranges.collect(), profile: Profile::of(entries) })
}

/// An image of letters, digits and some signs, whose line ends have this class, with a profile.
fn with_ends(of_ends: u32, entries: &[(u32, u32)]) -> Vec<u8> {
    let ranges = [
        (0x0A, 0x0D, of_ends),
        (0x20, 0x20, class::WHITE),
        (0x23, 0x23, class::SYNTAX),
        (0x2E, 0x2E, class::SYNTAX),
        (0x30, 0x39, class::NONSTART),
        (0x61, 0x7A, class::START),
        (0x85, 0x85, of_ends),
        (0x2028, 0x2029, of_ends),
    ];
    made(&ranges, entries)
}

/// CR LF where a token begins at its LF or ends after its CR.
#[test]
fn parted_cr_lf() {
    let white = |entries: &[(u32, u32)]| with_ends(class::WHITE, entries);
    let cases: [(Vec<u8>, &[u8], &[u32]); 8] = [
        (white(&[]), b"a\r\nb", &[1, 0, 1, 1, 4, 1, 3, 1, 1, 3, 4, 2]),
        (white(&[(0x0A, role::START)]), b"\r\nb ", &[4, 0, 1, 1, 1, 1, 3, 1, 3, 3, 4, 2]),
        (white(&[(0x0D, role::START)]), b"\r\nb", &[1, 0, 1, 1, 4, 1, 2, 1, 1, 2, 3, 2]),
        (white(&[(0x0D, role::NONSTART)]), b"a\r\nb", &[1, 0, 2, 1, 4, 2, 3, 1, 1, 3, 4, 2]),
        (white(&[(0x0D, role::MEDIAL)]), b"a\r\nb", &[1, 0, 1, 1, 4, 1, 3, 1, 1, 3, 4, 2]),
        (with_ends(class::SYNTAX, &[]), b"\r\na", &[2, 0, 1, 1, 2, 1, 2, 1, 1, 2, 3, 2]),
        (with_ends(class::START, &[]), b".\r\n.", &[2, 0, 1, 1, 1, 1, 3, 1, 2, 3, 4, 2]),
        (
            with_ends(class::SYNTAX, &[(0x0A, role::START)]),
            b"\r\n\r\n.",
            &[2, 0, 1, 1, 1, 1, 2, 1, 2, 2, 3, 2, 1, 3, 4, 2, 2, 4, 5, 3],
        ),
    ];
    for (image, text, list) in cases {
        assert_eq!(tokens(&image, text), Ok(list.to_vec()), "{text:02X?}");
    }
}

/// Line ends inside identifiers, by the class of their range, by a role and as medials.
#[test]
fn inside_identifiers() {
    let start = with_ends(class::WHITE, &[(0x0A, role::START)]);
    assert_eq!(tokens(&start, b"a\nb "), Ok(vec![1, 0, 3, 1, 3, 3, 4, 2]));
    for of_ends in [class::START, class::NONSTART] {
        let image = with_ends(of_ends, &[]);
        let text = "a\n\x0B\x0C\r\u{85}\u{2028}\u{2029}\r\r\n\n\rb .";
        assert_eq!(tokens(&image, text.as_bytes()).map(|words| lines(&words)), Ok(vec![1, 12, 12]));
    }
    let ends = [0x0A, 0x0B, 0x0C, 0x0D, 0x85, 0x2028, 0x2029];
    let medials = ends.map(|end| (end, role::MEDIAL));
    for of_ends in [class::UNASSIGNED, class::SYNTAX, class::WHITE, class::OTHER] {
        let image = with_ends(of_ends, &medials);
        let text = "a\nb\x0Bc\x0Cd\re\u{85}f\u{2028}g\u{2029}h .";
        assert_eq!(tokens(&image, text.as_bytes()).map(|words| lines(&words)), Ok(vec![1, 8, 8]));
    }
    // CR continues the identifier, LF joins it: one line end, at the LF.
    let both = with_ends(class::WHITE, &[(0x0A, role::MEDIAL), (0x0D, role::NONSTART)]);
    assert_eq!(tokens(&both, b"a\r\nb "), Ok(vec![1, 0, 4, 1, 3, 4, 5, 2]));
    assert_eq!(tokens(&both, b"a\r\n "), Ok(vec![1, 0, 2, 1, 4, 2, 3, 1, 3, 3, 4, 2]));
}

/// Line ends one after the other, between tokens and between tags.
#[test]
fn together() {
    let image = data("images/unicode-16.0.img");
    let cases = [
        ("\r\n", 2),
        ("\n", 2),
        ("\x0B", 2),
        ("\x0C", 2),
        ("\r", 2),
        ("\u{85}", 2),
        ("\u{2028}", 2),
        ("\u{2029}", 2),
        ("\r\r\n", 3),
        ("\n\r", 3),
        ("\n\r\n", 3),
        ("\r\n\r", 3),
        ("\r\n\r\n", 3),
        ("\n\n", 3),
        ("\r\r", 3),
        ("\r\u{85}", 3),
        ("\u{2028}\u{2029}", 3),
        ("\r\n\u{85}\x0B\x0C\n\r\u{2029}", 8),
    ];
    for (ends, line) in cases {
        let text = format!("#a{ends}#b");
        let words = tokens(&image, text.as_bytes()).unwrap();
        assert_eq!(lines(&words), [1, 1, 1, line, line], "{text:?}");
        let end = text.len() as u32;
        let expected = [HASHTAG_KIND, 0, 2, 1, HASHTAG_KIND, end - 2, end, line];
        assert_eq!(tags(&image, text.as_bytes()), expected, "{text:?}");
        // At the text's end nothing is on the line that it begins.
        let words = tokens(&image, format!("a{ends}").as_bytes()).unwrap();
        assert_eq!(lines(&words), [1, 1], "{ends:?}");
        let first = tokens(&image, format!("{ends}a").as_bytes()).unwrap();
        assert_eq!(lines(&first), [1, line], "{ends:?}");
    }
    // A blank parts CR from LF.
    assert_eq!(tokens(&image, b"a\r \nb").map(|words| lines(&words)), Ok(vec![1, 1, 2, 2, 3]));
}

/// Line ends inside tags: as hashtag Continue by role 5, by another role and by the class of their range.
#[test]
fn inside_tags() {
    let images = [
        with_ends(class::WHITE, &[(0x0A, role::HASHTAG), (0x0D, role::HASHTAG)]),
        with_ends(class::UNASSIGNED, &[(0x0A, role::NONSTART), (0x0D, role::START)]),
        with_ends(class::NONSTART, &[]),
    ];
    for image in &images {
        assert_eq!(tags(image, b"#a\nb #c"), [6, 0, 4, 1, 6, 5, 7, 2]);
        assert_eq!(tags(image, b"#\r\n\r #\n. #c"), [6, 0, 4, 1, 6, 5, 7, 3, 6, 9, 11, 4]);
        // Right before the second sign stands hashtag Continue.
        assert_eq!(tags(image, b"#a\n#b #c"), [6, 0, 3, 1, 6, 6, 8, 2]);
    }
    // The tag ends between CR and LF.
    let parted = with_ends(class::WHITE, &[(0x0D, role::HASHTAG)]);
    assert_eq!(tags(&parted, b"#a\r\n#b"), [6, 0, 3, 1, 6, 4, 6, 2]);
}

/// Each line end at every place of the first hundred bytes, after and before text of one to four bytes a character.
#[test]
fn at_every_place() {
    let image = data("images/unicode-16.0.img");
    for fill in ["a", "é", "压", "𞤣"] {
        for length in 0..100 / fill.len() {
            for end in LINE_ENDS {
                let before = fill.repeat(length);
                let text = [before.as_bytes(), end, before.as_bytes(), b" #a", end, b"#b"].concat();
                let words = tokens(&image, &text).unwrap();
                assert_eq!(lines(&words).last(), Some(&3), "{text:02X?}");
                assert_eq!(lines(&tags(&image, &text)), [2, 3], "{text:02X?}");
            }
        }
    }
}

/// Every scalar value as syntax, as white space, inside an identifier and before a tag: seven end a line.
#[test]
fn every_character() {
    let all =
        |class| made(&[(0, 0xD7FF, class), (0xE000, 0x10FFFF, class)], &[(0x61, role::START)]);
    let but_space = [
        (0, 0x1F, class::NONSTART),
        (0x20, 0x20, class::WHITE),
        (0x21, 0xD7FF, class::NONSTART),
        (0xE000, 0x10FFFF, class::NONSTART),
    ];
    let bytes = [all(class::SYNTAX), all(class::WHITE), made(&but_space, &[(0x61, role::START)])];
    let [syntax, white, nonstart] = [0, 1, 2].map(|i| Image::check(&bytes[i]).unwrap());
    let last = |image: &Image, text: &str| image.tokens(text).unwrap().last().unwrap().line;
    let mut ends = 0;
    for c in (0..=0x10FFFF).filter_map(char::from_u32) {
        let line = lines_by_bytes(format!("{c}a").as_bytes())[c.len_utf8()];
        assert_eq!(last(&syntax, &format!("{c}a")), line, "{c:?}");
        assert_eq!(last(&white, &format!("{c}a")), line, "{c:?}");
        assert_eq!(last(&nonstart, &format!("a{c} a")), line, "{c:?}");
        let tags = white.hashtags(&format!("{c}#a")).unwrap();
        assert_eq!(tags.last().map_or(1, |tag| tag.line), line, "{c:?}");
        ends += usize::from(line == 2);
    }
    assert_eq!(ends, 7);
}

/// The longest texts of line ends: each a token of its own, all one token, and before a tag.
#[test]
fn most_line_ends() {
    let (syntax, white) = (with_ends(class::SYNTAX, &[]), with_ends(class::WHITE, &[]));
    for (end, line_ends) in
        [("\n", 1), ("\r", 1), ("\r\n", 1), ("\r\r\n", 2), ("\u{85}", 1), ("\u{2028}", 1)]
    {
        let times = MAX_TEXT / end.len();
        let text = end.repeat(times);
        let words = tokens(&syntax, text.as_bytes()).unwrap();
        assert_eq!(words.len() / RECORD_WORDS, times * end.chars().count());
        assert_eq!(lines(&words).last(), Some(&((times * line_ends) as u32)), "{end:?}");
        assert_eq!(tokens(&white, text.as_bytes()), Ok(vec![4, 0, text.len() as u32, 1]));
        assert_eq!(tags(&white, text.as_bytes()), [0; 0]);
        let text = end.repeat(times - 2) + "#a";
        let (start, line) = (text.len() as u32 - 2, ((times - 2) * line_ends + 1) as u32);
        assert_eq!(
            tags(&white, text.as_bytes()),
            [HASHTAG_KIND, start, start + 2, line],
            "{end:?}"
        );
        assert_eq!(lines(&tokens(&white, text.as_bytes()).unwrap()), [1, line, line], "{end:?}");
    }
    let text = "#a\n".repeat(MAX_TEXT / 3);
    let rising: Vec<u32> = (1..=MAX_TEXT as u32 / 3).collect();
    assert!(lines(&tags(&white, text.as_bytes())) == rising);
    let image = Image::check(&white).unwrap();
    assert!(image.hashtags(&text).unwrap().iter().map(|tag| tag.line).eq(rising));
}

/// Every text of four characters from five, with LF and CR of every two classes and roles.
#[test]
fn every_short_text() {
    let (mut texts, mut accepted) = (0, 0);
    for number in 0..36 * 36 {
        let ranges = [
            (0x0A, 0x0A, number % 6),
            (0x0D, 0x0D, number / 36 % 6),
            (0x23, 0x23, class::SYNTAX),
            (0x2E, 0x2E, class::SYNTAX),
            (0x61, 0x7A, class::START),
        ];
        let roles = [(0x0A, number / 6 % 6), (0x0D, number / 36 / 6)];
        let entries: Vec<(u32, u32)> = roles.into_iter().filter(|entry| entry.1 != 0).collect();
        let image = made(&ranges, &entries);
        for number in 0..5usize.pow(4) {
            let text = [0, 1, 2, 3].map(|i| b"a.#\r\n"[number / 5usize.pow(i) % 5]);
            accepted += usize::from(tokens(&image, &text).is_ok());
            tags(&image, &text);
            texts += 1;
        }
    }
    say(&format!("short texts with line ends: {texts}, accepted {accepted}"));
    assert!(accepted > texts / 10);
}

/// A line depends on nothing past the first code point of its token: cut there, the text has the same token's start
/// and line last.
fn cut_after(image: &[u8], text: &[u8], record: &[u32]) {
    let start = record[1] as usize;
    let (_, length) = utf8::first(&text[start..]).unwrap();
    let words = tokens(image, &text[..start + length]).unwrap();
    let last = &words[words.len() - RECORD_WORDS..];
    assert_eq!([last[0], last[1], last[3]], [record[0], record[1], record[3]], "{text:02X?}");
}

/// Made texts, and texts of any line ends among other pieces.
#[test]
fn made_texts() {
    let (mut rng, mut tally) = (Rng::seeded(401), Tally::default());
    for _ in 0..runs(RUNS) {
        let made = hashtag_image(&mut rng);
        let (image, pieces) = (image_of(&made), 1 + rng.below(40));
        let text = match rng.below(3) {
            0 => token_text(&mut rng, &made, pieces),
            1 => hashtag_text(&mut rng, &made, pieces),
            _ => {
                let others: [&[u8]; 5] = [b"a", b"#b", b" ", b"\xC3\xA9", b"\xE2\x80\xA7"];
                let all = [&LINE_ENDS[..], &others].concat();
                (0..pieces).flat_map(|_| *rng.pick(&all)).copied().collect()
            }
        };
        tags(&image, &text);
        let listed = tokens(&image, &text);
        tally.add(&listed);
        let words = listed.unwrap_or_default();
        if !words.is_empty() {
            let at = RECORD_WORDS * rng.below(words.len() / RECORD_WORDS);
            cut_after(&image, &text, &words[at..at + RECORD_WORDS]);
        }
    }
    tally.close("lines", "ok,7,14");
}
