//! The calls on tokens against the independent reader, on made cases and on every short text of some bytes.

use luffinarc::{Image, MAX_TEXT, RECORD_WORDS};
use luffinarc_reader::cases::*;
use luffinarc_reader::image::{parse, Image as Made};
use luffinarc_reader::line::LINE_ENDS;
use luffinarc_reader::token::MARKS;
use luffinarc_reader::{class, role, utf8, Calls, Profile, Reader, Refusal, Token};
use luffinarc_tests::{data, named, runs, say, Library};

const RUNS: usize = 3000;

#[test]
fn counts() {
    let (mut rng, mut tally) = (Rng::seeded(201), Tally::default());
    for _ in 0..runs(RUNS) {
        let case = count_case(&mut rng);
        let result = Library.count(&case.image, &case.text);
        assert_eq!(result, Reader.count(&case.image, &case.text), "{case:02X?}");
        tally.add(&result);
        let image = match Image::check(&case.image) {
            Ok(image) => image,
            Err(_) => continue,
        };
        assert_eq!(image.count(&case.text).map_err(named), result, "{case:02X?}");
    }
    tally.close("count", "ok,1,2,3,4,5,6,7,14");
}

#[test]
fn lists() {
    let (mut rng, mut tally) = (Rng::seeded(202), Tally::default());
    for _ in 0..runs(RUNS) {
        let case = list_case(&mut rng);
        let (mut words, mut expected) = (vec![7; case.room], vec![7; case.room]);
        let result = Library.list(&case.image, &case.text, &mut words);
        assert_eq!(result, Reader.list(&case.image, &case.text, &mut expected), "{case:02X?}");
        assert!(words == expected, "{case:02X?}");
        tally.add(&result);
        let image = match Image::check(&case.image) {
            Ok(image) => image,
            Err(_) => continue,
        };
        let mut again = vec![7; case.room];
        assert_eq!(image.list(&case.text, &mut again).map_err(named), result, "{case:02X?}");
        assert!(again == expected, "{case:02X?}");
        let count = match result {
            Ok(count) => count,
            Err(_) => continue,
        };
        let tokens = image.tokens(&case.text).unwrap();
        assert_eq!(tokens.len(), count);
        let token = |t: luffinarc::Token| {
            [t.kind.number(), t.range.start as u32, t.range.end as u32, t.line]
        };
        assert!(
            tokens.flat_map(token).eq(words[..RECORD_WORDS * count].iter().copied()),
            "{case:02X?}"
        );
    }
    tally.close("list", "ok,1,2,3,4,5,6,7,8,14");
}

#[test]
fn places() {
    let (mut rng, mut tally) = (Rng::seeded(203), Tally::default());
    for _ in 0..runs(RUNS) {
        let case = at_case(&mut rng);
        let result = Library.at(&case.image, &case.text, case.place);
        assert_eq!(result, Reader.at(&case.image, &case.text, case.place), "{case:02X?}");
        match result {
            Ok(None) => tally.name("done"),
            _ => tally.add(&result),
        }
        let image = match Image::check(&case.image) {
            Ok(image) => image,
            Err(_) => continue,
        };
        let token = |t: luffinarc::Taken| Token {
            kind: t.kind.number(),
            start: t.range.start,
            end: t.range.end,
        };
        let again = image.token_at(&case.text, case.place).map(|found| found.map(token));
        assert_eq!(again.map_err(named), result, "{case:02X?}");
    }
    tally.close("at", "ok,done,1,2,3,4,5,6,7,13");
}

#[test]
fn parts() {
    let (mut rng, mut tally) = (Rng::seeded(204), Tally::default());
    for _ in 0..runs(RUNS) {
        let case = part_case(&mut rng);
        let result = Library.part(&case.text, case.start, case.end);
        let expected = Reader.part(&case.text, case.start, case.end);
        assert_eq!(result, expected, "{case:02X?}");
        // The part is the caller's own text, not a copy of it.
        assert_eq!(result.map(<[u8]>::as_ptr), expected.map(<[u8]>::as_ptr), "{case:02X?}");
        let again = luffinarc::part(&case.text, case.start..case.end);
        assert_eq!(again.map_err(named), result, "{case:02X?}");
        tally.add(&result);
    }
    tally.close("part", "ok,13");
}

#[test]
fn listers() {
    let (mut rng, mut tally) = (Rng::seeded(205), Tally::default());
    for _ in 0..runs(RUNS) / 6 {
        let case = lister_case(&mut rng);
        let output = Library.lister(&case.input).unwrap();
        assert_eq!(output, luffinarc_reader::lister(&case.input), "{case:02X?}");
        let mut words = output.split_ascii_whitespace();
        match words.next().unwrap() {
            "refused" => tally.name(words.next().unwrap()),
            first => tally.name(first),
        }
    }
    tally.close("lister", "tokens,1,2,3,4,5,6,7,14");
}

/// Compares count, list and every place of a text, and gives the count.
fn compare(image: &[u8], text: &[u8]) -> Result<usize, Refusal> {
    let result = Library.count(image, text);
    assert_eq!(result, Reader.count(image, text), "{text:02X?}");
    let room = RECORD_WORDS * result.unwrap_or(2);
    for room in [room, room.saturating_sub(1), room + 5] {
        let (mut words, mut expected) = (vec![7; room], vec![7; room]);
        let listed = Library.list(image, text, &mut words);
        assert_eq!(listed, Reader.list(image, text, &mut expected), "{text:02X?}, room {room}");
        assert!(words == expected, "{text:02X?}, room {room}");
    }
    result
}

/// Every text of at most so many bytes from these: a letter, a digit, a medial that is Syntax, a blank, another
/// character, and the two bytes of one letter, alone and together.
#[test]
fn every_short_text() {
    let image = data("images/m2.img");
    let bytes = *b"a1. !\xC3\xA9";
    let most = if runs(0) > 100_000 { 7 } else { 5 };
    let (mut texts, mut accepted) = (0, 0);
    for length in 0..=most {
        for number in 0..bytes.len().pow(length) {
            let text: Vec<u8> =
                (0..length).map(|i| bytes[number / bytes.len().pow(i) % bytes.len()]).collect();
            accepted += usize::from(compare(&image, &text).is_ok());
            for place in 0..=text.len() + 1 {
                let result = Library.at(&image, &text, place);
                assert_eq!(result, Reader.at(&image, &text, place), "{text:02X?} at {place}");
            }
            texts += 1;
        }
    }
    say(&format!("short texts: {texts}, accepted {accepted}"));
}

/// Every scalar value as a text of its own, under the 16.0 image.
#[test]
fn every_character() {
    let bytes = data("images/unicode-16.0.img");
    let (image, classes) = (Image::check(&bytes).unwrap(), parse(&bytes).unwrap().table());
    for c in (0..=0x10FFFF).filter_map(char::from_u32) {
        let text = c.to_string();
        let kind = match classes[c as usize].into() {
            class::START => luffinarc::Kind::Identifier,
            class::SYNTAX => luffinarc::Kind::Syntax,
            class::WHITE if LINE_ENDS.contains(&c.into()) => luffinarc::Kind::LineEnd,
            class::WHITE if MARKS.contains(&c.into()) => luffinarc::Kind::Mark,
            class::WHITE => luffinarc::Kind::Blank,
            _ => {
                let refused = Err(luffinarc::Refusal::Characters { place: 0 });
                assert_eq!(image.token_at(&text, 0), refused, "{c:?}");
                continue;
            }
        };
        let token = luffinarc::Taken { kind, range: 0..text.len() };
        assert_eq!(image.token_at(&text, 0), Ok(Some(token)), "{c:?}");
    }
}

/// Texts about the longest, whole and spoilt at their end.
#[test]
fn lengths() {
    let image = data("images/unicode-16.0.img");
    let mut results = Tally::default();
    for length in [0, 1, MAX_TEXT - 1, MAX_TEXT, MAX_TEXT + 1] {
        for fill in ["a", " ", ";", "ab c; ", "zażółć ", "𞤣𞤮𞤼𞥅𞤢𞤤 "] {
            let mut text = fill.repeat(length / fill.len() + 1).into_bytes();
            text.truncate(length);
            results.add(&compare(&image, &text));
            for last in [0x80, b'1'] {
                if let Some(byte) = text.last_mut() {
                    *byte = last;
                    results.add(&compare(&image, &text));
                }
            }
            for place in [0, length.saturating_sub(1), length, length + 1, usize::MAX] {
                let result = Library.at(&image, &text, place);
                assert_eq!(result, Reader.at(&image, &text, place), "{length}, {fill} at {place}");
            }
        }
    }
    results.close("lengths", "ok,5,6,7");
}

/// Medials of every class, before and after every kind of character, of some with role 5 too.
#[test]
fn medials() {
    let plain = parse(&data("images/unicode-16.0.img")).unwrap();
    let entries = [
        (0x20, role::MEDIAL),
        (0x2D, role::MEDIAL),
        (0x2E, role::HASHTAG),
        (0x31, role::MEDIAL),
        (0x41, role::MEDIAL),
        (0x5F, role::START),
        (0x62, role::OTHER),
        (0x63, role::HASHTAG),
        (0xA0, role::MEDIAL),
        (0x378, role::MEDIAL),
    ];
    let image = image_of(&Made { profile: Profile::of(&entries), ..plain });
    let points = [0x20, 0x2D, 0x2E, 0x31, 0x41, 0x5F, 0x62, 0x63, 0xA0, 0x378, 0x1E900];
    let encode = |point: u32| char::from_u32(point).unwrap().to_string();
    let pieces: Vec<String> = points.map(encode).to_vec();
    for a in &pieces {
        for b in &pieces {
            for c in &pieces {
                for d in &pieces {
                    let _ = compare(&image, [&**a, b, c, d].concat().as_bytes());
                }
            }
        }
    }
    assert_eq!(utf8::decode(pieces.concat().as_bytes()).0.len(), points.len());
}
