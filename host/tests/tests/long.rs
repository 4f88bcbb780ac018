//! The loops over long texts, against the independent reader: every short text and every character after so many blanks
//! that the text is long, texts around the length from which texts are long, more tokens than their starts have room for,
//! and more blocks than are kept.

use luffinarc::RECORD_WORDS;
use luffinarc_reader::cases::*;
use luffinarc_reader::image::parse;
use luffinarc_reader::{class, Calls, Reader, Refusal};
use luffinarc_tests::{data, runs, say, Library};

/// From so many bytes on a text is long.
const LONG: usize = 96;

/// The starts of so many tokens have room at once.
const STARTS: usize = 1152;

/// The number of tokens, or why not: counted and listed alike by the library and the reader, with words to spare.
fn compare(image: &[u8], text: &[u8]) -> Result<usize, Refusal> {
    let room = RECORD_WORDS * text.len() + 3;
    let (mut words, mut expected) = (vec![7; room], vec![7; room]);
    let listed = Library.list(image, text, &mut words);
    assert_eq!(listed, Reader.list(image, text, &mut expected), "{text:02X?} {image:02X?}");
    assert!(words == expected, "{text:02X?} {image:02X?}");
    assert_eq!(Library.count(image, text), listed, "{text:02X?} {image:02X?}");
    listed
}

/// Blanks before a text, so many that it is long.
fn after_blanks(text: &[u8]) -> Vec<u8> {
    [&[b' '; LONG], text].concat()
}

/// Every text of at most so many bytes from these, after blanks: a letter, a digit, a medial that is Syntax, a blank,
/// another character, a line end, and the two bytes of one letter, alone and together.
#[test]
fn every_short_text() {
    let image = data("images/m2.img");
    let bytes = *b"a1. !\n\xC3\xA9";
    let most = if runs(0) > 100_000 { 5 } else { 4 };
    let (mut texts, mut accepted) = (0, 0);
    for length in 0..=most {
        for number in 0..bytes.len().pow(length) {
            let text: Vec<u8> =
                (0..length).map(|i| bytes[number / bytes.len().pow(i) % bytes.len()]).collect();
            accepted += usize::from(compare(&image, &after_blanks(&text)).is_ok());
            texts += 1;
        }
    }
    say(&format!("short texts after blanks: {texts}, accepted {accepted}"));
    assert!(accepted > 100 && accepted < texts);
}

/// Short texts with marks that are accepted alone, one after the other until the text is long, under images in which the
/// same few characters have any class and role; the last bytes are cut off one by one.
#[test]
fn marks() {
    let (mut rng, mut tally) = (Rng::seeded(1701), Tally::default());
    for _ in 0..runs(300) {
        let image = image_of(&marked_images(&mut rng).0);
        let mut text = Vec::new();
        for _ in 0..200 {
            let part = marked_text(&mut rng);
            if text.len() < LONG + 20 && Library.count(&image, &part).is_ok() {
                text.extend(part);
            }
        }
        for end in LONG.min(text.len())..=text.len() {
            tally.add(&compare(&image, &text[..end]));
        }
    }
    tally.close("marks in long texts", "ok,6,7,14");
}

/// Every scalar value in an identifier or after one, some hundred in a text, under the 16.0 image: what is accepted in one
/// list, and each text once more with a character at its end that is not.
#[test]
fn every_character() {
    let image = data("images/unicode-16.0.img");
    let classes = parse(&image).unwrap().table();
    let scalars: Vec<char> = (0..=0x10FFFF).filter_map(char::from_u32).collect();
    let (mut known, mut refused) = (0, 0);
    for part in scalars.chunks(640) {
        let begins = |c: &char| {
            matches!(classes[*c as usize].into(), class::START | class::SYNTAX | class::WHITE)
        };
        let mut text = " ".repeat(LONG);
        for c in part.iter().filter(|c| begins(c) || classes[**c as usize] == class::NONSTART as u8)
        {
            text += &format!("a{c} ");
            known += 1;
        }
        assert!(
            compare(&image, text.as_bytes()).is_ok() || text.contains(['\u{200E}', '\u{200F}'])
        );
        if let Some(c) = part.iter().find(|c| !begins(c)) {
            text.push(*c);
            refused += usize::from(compare(&image, text.as_bytes()).is_err());
        }
    }
    say(&format!("characters in long texts: {known}, texts refused {refused}"));
    assert!(known > 140_000 && refused > 1000);
}

/// Texts of some thousand tokens of one byte, so that their starts come in pieces, which end within names, after medials
/// and before the last token; each length around one piece and around two.
#[test]
fn around_the_starts() {
    let (image, mut tally) = (data("images/m2.img"), Tally::default());
    for fill in [". ", "a ", "a. ", ".a ", "a.b. ", " a.", "é ", "a1 .. "] {
        let pieces = [STARTS, 2 * STARTS, 3 * STARTS];
        for length in pieces.into_iter().flat_map(|n| n - 9..=n + 9).chain([7000, 20_000]) {
            let mut text = fill.repeat(length / fill.len() + 1).into_bytes();
            text.truncate(length);
            tally.add(&compare(&image, &text));
            text[length - 1] = b'1';
            tally.add(&compare(&image, &text));
        }
    }
    tally.close("texts around the starts", "ok,6,7");
}

/// Texts of each length around the one from which texts are long, whole and with another last byte.
#[test]
fn around_the_length() {
    let (image, mut tally) = (data("images/unicode-16.0.img"), Tally::default());
    for length in LONG - 6..=LONG + 6 {
        for fill in ["a", " ", ";", "\r\n", "ab c;\n", "zażółć ", "漢字、", "𞤣𞤮𞤼𞥅𞤢𞤤 "]
        {
            let mut text = fill.repeat(length / fill.len() + 1).into_bytes();
            text.truncate(length);
            tally.add(&compare(&image, &text));
            for last in [0x80, 0xC3, 0xF0, b'1', b'\r'] {
                text[length - 1] = last;
                tally.add(&compare(&image, &text));
            }
        }
    }
    tally.close("texts around the length", "ok,6,7");
}
