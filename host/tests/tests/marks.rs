//! Kinds of white space, and marks that part a token (refusal 14): against lists spelled out, against the independent
//! reader, and under older and newer images.

use luffinarc::{Image, Kind, MAX_TEXT, RECORD_WORDS};
use luffinarc_reader::cases::*;
use luffinarc_reader::image::{parse, Image as Made, Range};
use luffinarc_reader::line::LINE_ENDS;
use luffinarc_reader::token::MARKS;
use luffinarc_reader::{class, role, utf8, Calls, Profile, Reader, Refusal, Token};
use luffinarc_tests::{named, runs, say, Library};

/// In texts here L is U+200E and R is U+200F.
fn text_of(notation: &str) -> String {
    notation.replace('L', "\u{200E}").replace('R', "\u{200F}")
}

fn made(ranges: &[(u32, u32, u32)], entries: &[(u32, u32)]) -> Vec<u8> {
    let range = |&(first, last, class)| Range { first, last, class };
    let ranges = ranges.iter().map(range).filter(|range| range.class != class::UNASSIGNED);
    image_of(&Made { version: 1, ranges: ranges.collect(), profile: Profile::of(entries) })
}

/// K of docs/CASES.md with 2B as Syntax, marks of this class, and these entries beside 2E as a medial.
fn with_marks(of_marks: u32, entries: &[(u32, u32)]) -> Vec<u8> {
    let ranges = [
        (0x0A, 0x0D, class::WHITE),
        (0x20, 0x20, class::WHITE),
        (0x2B, 0x2B, class::SYNTAX),
        (0x2E, 0x2E, class::SYNTAX),
        (0x30, 0x39, class::NONSTART),
        (0x61, 0x7A, class::START),
        (0x200E, 0x200F, of_marks),
    ];
    let mut entries = [&[(0x2E, role::MEDIAL)], entries].concat();
    entries.sort();
    made(&ranges, &entries)
}

fn k() -> Vec<u8> {
    with_marks(class::WHITE, &[])
}

/// The list of a text by the library's calls, which are the reader's: with all room, and with a word less than it needs
/// or none. After a refusal the words are as they were.
fn tokens(image: &[u8], text: &[u8]) -> Result<Vec<u32>, Refusal> {
    let room = RECORD_WORDS * text.len();
    let (mut words, mut expected) = (vec![7; room], vec![7; room]);
    let listed = Library.list(image, text, &mut words);
    assert_eq!(listed, Reader.list(image, text, &mut expected), "{text:02X?} {image:02X?}");
    assert!(words == expected, "{text:02X?} {image:02X?}");
    assert_eq!(Library.count(image, text), listed, "{text:02X?} {image:02X?}");
    let count = listed.unwrap_or(0);
    let mut few = vec![7; (RECORD_WORDS * count).saturating_sub(1)];
    let refused = listed.and_then(|n| if n > 0 { Err(Refusal::Room(n as u64)) } else { Ok(0) });
    assert_eq!(Library.list(image, text, &mut few), refused, "{text:02X?} {image:02X?}");
    assert!(few.iter().all(|&word| word == 7), "{text:02X?} {image:02X?}");
    words.truncate(RECORD_WORDS * listed?);
    Ok(words)
}

/// A list as its records, a refusal as its number and what it carries.
fn shown(listed: Result<Vec<u32>, Refusal>) -> String {
    let numbers =
        |numbers: &[u32]| numbers.iter().map(u32::to_string).collect::<Vec<_>>().join(" ");
    match listed {
        Ok(words) => words.chunks(RECORD_WORDS).map(numbers).collect::<Vec<_>>().join("; "),
        Err(refusal) => refusal.to_string().replace("refused ", ""),
    }
}

/// Holds cases, each a text and its list or refusal, to all calls and to the token lister.
fn hold(image: &[u8], cases: &[(&str, &str)]) {
    for &(notation, answer) in cases {
        let text = text_of(notation);
        assert_eq!(shown(tokens(image, text.as_bytes())), answer, "{notation:?}");
        let input = [image, text.as_bytes()].concat();
        let output = Library.lister(&input).unwrap();
        assert_eq!(output, luffinarc_reader::lister(&input), "{notation:?}");
        let refused = tokens(image, text.as_bytes()).is_err();
        assert_eq!(output == format!("refused {answer}\n"), refused, "{notation:?}");
    }
}

/// A mark between names, or between a name and a medial that joins it to more: refused at the mark's first byte.
#[test]
fn marks_that_part_names() {
    let cases = [
        ("aLb", "14 1"),
        ("aRb", "14 1"),
        ("aLLb", "14 1"),
        ("aLRLb", "14 1"),
        ("abc1Ldef", "14 4"),
        ("aL.b", "14 1"),
        ("aL.b.c", "14 1"),
        ("a.Lb", "14 2"),
        ("a.RLb", "14 2"),
        ("a.bLc", "14 3"),
        ("a.b.Lc", "14 4"),
        ("a.bL.c", "14 3"),
        ("+aLb", "14 2"),
        ("LaLbL", "14 4"),
        ("+L+LaLb", "14 9"),
        (" \naLb", "14 3"),
    ];
    hold(&k(), &cases);
}

/// A mark at an end of the text, beside white space, or where a token ends without it too.
#[test]
fn marks_that_part_nothing() {
    let cases = [
        ("", ""),
        ("L", "5 0 3 1"),
        ("LRL", "5 0 9 1"),
        ("LaL", "5 0 3 1; 1 3 4 1; 5 4 7 1"),
        ("a Lb", "1 0 1 1; 3 1 2 1; 5 2 5 1; 1 5 6 1"),
        ("aL b", "1 0 1 1; 5 1 4 1; 3 4 5 1; 1 5 6 1"),
        ("a\nLb", "1 0 1 1; 4 1 2 1; 5 2 5 2; 1 5 6 2"),
        ("aL\nb", "1 0 1 1; 5 1 4 1; 4 4 5 1; 1 5 6 2"),
        (".Lb", "2 0 1 1; 5 1 4 1; 1 4 5 1"),
        ("aL.", "1 0 1 1; 5 1 4 1; 2 4 5 1"),
        ("a.L", "1 0 1 1; 2 1 2 1; 5 2 5 1"),
        ("aL.Lb", "1 0 1 1; 5 1 4 1; 2 4 5 1; 5 5 8 1; 1 8 9 1"),
        ("a.L.b", "1 0 1 1; 2 1 2 1; 5 2 5 1; 2 5 6 1; 1 6 7 1"),
        ("a..Lb", "1 0 1 1; 2 1 2 1; 2 2 3 1; 5 3 6 1; 1 6 7 1"),
        ("aL..b", "1 0 1 1; 5 1 4 1; 2 4 5 1; 2 5 6 1; 1 6 7 1"),
        ("a .Lb", "1 0 1 1; 3 1 2 1; 2 2 3 1; 5 3 6 1; 1 6 7 1"),
        ("aL. b", "1 0 1 1; 5 1 4 1; 2 4 5 1; 3 5 6 1; 1 6 7 1"),
        ("a+Lb", "1 0 1 1; 2 1 2 1; 5 2 5 1; 1 5 6 1"),
        ("aL+b", "1 0 1 1; 5 1 4 1; 2 4 5 1; 1 5 6 1"),
        ("+L+", "2 0 1 1; 5 1 4 1; 2 4 5 1"),
    ];
    hold(&k(), &cases);
}

/// White space is cut into blanks, line ends and marks.
#[test]
fn kinds_of_white_space() {
    let cases = [
        (" \nL ", "3 0 1 1; 4 1 2 1; 5 2 5 2; 3 5 6 2"),
        ("  \n\n LR ", "3 0 2 1; 4 2 4 1; 3 4 5 3; 5 5 11 3; 3 11 12 3"),
        ("\r\r\na", "4 0 3 1; 1 3 4 3"),
        ("a\r\nb", "1 0 1 1; 4 1 3 1; 1 3 4 2"),
        ("\rL\na", "4 0 1 1; 5 1 4 2; 4 4 5 2; 1 5 6 3"),
        ("\x0B \x0C", "4 0 1 1; 3 1 2 2; 4 2 3 2"),
    ];
    hold(&k(), &cases);
    let start = with_marks(class::WHITE, &[(0x0A, role::START)]);
    hold(&start, &[("\r\nb ", "4 0 1 1; 1 1 3 1; 3 3 4 2"), ("a\nLb", "14 2")]);
}

/// 6 and 7 anywhere in the text come before 14, and the room is judged after it.
#[test]
fn order_of_refusals() {
    let image = k();
    let cases = [
        ("aL1", "7 4"),
        ("aL.1", "7 5"),
        ("aLb%", "7 5"),
        ("%aLb", "7 0"),
        ("aLb cLd %", "7 12"),
        ("aLb cLd", "14 1"),
        ("a.L. cLd", "14 8"),
        ("aLb", "14 1"),
    ];
    hold(&image, &cases);
    let bytes = |text: &str, more: &[u8]| [text_of(text).as_bytes(), more].concat();
    assert_eq!(shown(tokens(&image, &bytes("aLb", b"\xC0"))), "6 5 1");
    assert_eq!(shown(tokens(&image, &bytes("aLb%", b"\xE2\x80"))), "6 6 2");
    assert_eq!(shown(tokens(&image, &bytes("aL", b"\xE2\x80b"))), "6 4 2");
    for room in 0..16 {
        let mut words = vec![7; room];
        let listed = Library.list(&image, text_of("aLb").as_bytes(), &mut words);
        assert_eq!(listed, Err(Refusal::Mark(1)));
        assert!(words.iter().all(|&word| word == 7));
        let listed = Library.list(&image, text_of("aL.").as_bytes(), &mut words);
        assert_eq!(listed, if room < 12 { Err(Refusal::Room(3)) } else { Ok(3) });
    }
    let long = text_of("aLb") + &" ".repeat(MAX_TEXT - 4);
    assert_eq!(Library.count(&image, long.as_bytes()), Err(Refusal::TextLength));
    assert_eq!(Library.count(&image[1..], text_of("aLb").as_bytes()), Err(Refusal::Length));
}

/// Marks by their class and role: only White is cut, a medial is one inside a name, and role 5 changes nothing.
#[test]
fn marks_with_classes_and_roles() {
    let medial = with_marks(class::WHITE, &[(0x200E, role::MEDIAL)]);
    let cases = [
        ("aLb", "1 0 5 1"),
        ("aLLb", "14 1"),
        ("aRb", "14 1"),
        ("aLRb", "14 1"),
        ("aL.b", "14 1"),
        ("a.Lb", "14 2"),
        ("aL1", "1 0 5 1"),
        ("LaLbL", "5 0 3 1; 1 3 8 1; 5 8 11 1"),
        ("aL+", "1 0 1 1; 5 1 4 1; 2 4 5 1"),
    ];
    hold(&medial, &cases);
    hold(&with_marks(class::SYNTAX, &[]), &[("aLb", "1 0 1 1; 2 1 4 1; 1 4 5 1")]);
    hold(&with_marks(class::NONSTART, &[]), &[("aLb", "1 0 5 1"), ("Lb", "7 0")]);
    hold(&with_marks(class::OTHER, &[]), &[("aLb", "7 1")]);
    hold(&with_marks(class::UNASSIGNED, &[]), &[("aLb", "7 1")]);
    hold(
        &with_marks(class::WHITE, &[(0x200E, role::START)]),
        &[("aLb", "1 0 5 1"), ("aRb", "14 1")],
    );
    hold(&with_marks(class::WHITE, &[(0x200E, role::OTHER)]), &[("aLb", "7 1"), ("aRb", "14 1")]);
    hold(&with_marks(class::WHITE, &[(0x200E, role::HASHTAG)]), &[("aLb", "14 1")]);
    let joining = with_marks(class::SYNTAX, &[(0x200E, role::MEDIAL)]);
    hold(&joining, &[("aLb", "1 0 5 1"), ("aL.b", "1 0 1 1; 2 1 4 1; 2 4 5 1; 1 5 6 1")]);
}

/// One token at a place: marks as they are cut, from the place on, and never 14.
#[test]
fn one_token() {
    let image = k();
    let (bytes, text) = (Image::check(&image).unwrap(), text_of("aLRb \nL"));
    let taken = [(0, 1, 1), (1, 5, 7), (4, 5, 7), (7, 1, 8), (8, 3, 9), (9, 4, 10), (10, 5, 13)];
    for (place, kind, end) in taken {
        let token = Library.at(&image, text.as_bytes(), place);
        assert_eq!(token, Ok(Some(Token { kind, start: place, end })));
        let token = bytes.token_at(&text, place).unwrap().unwrap();
        assert_eq!((token.kind.number(), token.range), (kind, place..end));
    }
    assert_eq!(Library.at(&image, text.as_bytes(), 13), Ok(None));
    let inside = Err(Refusal::IllFormed { place: 2, len: 1 });
    assert_eq!(Library.at(&image, text.as_bytes(), 2), inside);
    assert_eq!(bytes.count(&text), Err(luffinarc::Refusal::Mark { place: 1 }));
}

/// Every place of a text by the one-token call.
fn compare_places(image: &[u8], text: &[u8]) {
    for place in 0..=text.len() {
        let taken = Library.at(image, text, place);
        assert_eq!(taken, Reader.at(image, text, place), "{text:02X?} at {place}");
        assert!(!matches!(taken, Err(Refusal::Mark(_))));
    }
}

/// The texts of so many pieces.
fn texts_of<'a>(pieces: &'a [&'a str], length: u32) -> impl Iterator<Item = String> + 'a {
    (0..pieces.len().pow(length)).map(move |number| {
        let piece = |i| pieces[number / pieces.len().pow(i) % pieces.len()];
        text_of(&(0..length).map(piece).collect::<String>())
    })
}

/// Every text of up to five characters from eight: a letter, a digit, a medial, a sign, a blank, a line end and marks.
#[test]
fn every_short_text() {
    let mut tally = Tally::default();
    let images = [k(), with_marks(class::WHITE, &[(0x200E, role::MEDIAL), (0x20, role::MEDIAL)])];
    for image in &images {
        for length in 0..=5 {
            for text in texts_of(&["a", "1", ".", "+", " ", "\n", "L", "R"], length) {
                tally.add(&tokens(image, text.as_bytes()));
                if length < 5 {
                    compare_places(image, text.as_bytes());
                }
            }
        }
    }
    tally.close("short texts with marks", "ok,7,14");
}

/// Every text of five characters from four, with the mark and the full stop of every two classes and roles.
#[test]
fn every_class_and_role() {
    let (mut texts, mut marks) = (0, 0);
    for number in 0..36 * 36 {
        let ranges = [
            (0x2E, 0x2E, number % 6),
            (0x31, 0x31, class::NONSTART),
            (0x61, 0x7A, class::START),
            (0x200E, 0x200E, number / 36 % 6),
        ];
        let roles = [(0x2E, number / 6 % 6), (0x200E, number / 36 / 6)];
        let entries: Vec<(u32, u32)> = roles.into_iter().filter(|entry| entry.1 != 0).collect();
        let image = made(&ranges, &entries);
        for text in texts_of(&["a", "1", ".", "L"], 5) {
            let listed = tokens(&image, text.as_bytes());
            marks += usize::from(matches!(listed, Err(Refusal::Mark(_))));
            texts += 1;
        }
    }
    say(&format!(
        "short texts with a mark of every class and role: {texts}, refused with 14 {marks}"
    ));
    assert!(marks > 0);
}

/// Every scalar value between two letters, as white space: two are marks, seven line ends, all others blanks.
#[test]
fn every_character() {
    let white = [(0, 0xD7FF, class::WHITE), (0xE000, 0x10FFFF, class::WHITE)];
    let bytes = made(&white, &[(0x61, role::START), (0x62, role::START)]);
    let image = Image::check(&bytes).unwrap();
    for c in (0..=0x10FFFF).filter_map(char::from_u32).filter(|&c| c != 'a' && c != 'b') {
        let (text, point) = (format!("a{c}b"), c.into());
        let kind = if MARKS.contains(&point) {
            Kind::Mark
        } else if LINE_ENDS.contains(&point) {
            Kind::LineEnd
        } else {
            Kind::Blank
        };
        let taken = image.token_at(&text, 1).unwrap().unwrap();
        assert_eq!((taken.kind, taken.range), (kind, 1..text.len() - 1), "{c:?}");
        match image.tokens(&text) {
            Ok(tokens) => {
                let kinds: Vec<Kind> = tokens.map(|token| token.kind).collect();
                assert_eq!(kinds, [Kind::Identifier, kind, Kind::Identifier], "{c:?}");
                assert!(kind != Kind::Mark, "{c:?}");
            }
            Err(refusal) => {
                assert_eq!((kind, refusal), (Kind::Mark, luffinarc::Refusal::Mark { place: 1 }));
            }
        }
    }
}

/// The kinds of a long text's tokens by the library alone, in turn as often as they come, or the refusal.
fn kinds(image: &[u8], text: &str) -> Result<Vec<u32>, Refusal> {
    let mut words = vec![7; RECORD_WORDS * text.len()];
    let count = Library.list(image, text.as_bytes(), &mut words)?;
    assert_eq!(Library.count(image, text.as_bytes()), Ok(count));
    Ok(words.chunks(RECORD_WORDS).take(count).map(|record| record[0]).collect())
}

/// The longest texts: of marks alone, of marks that part nothing, with one that parts a name at the very end.
#[test]
fn longest_texts() {
    let image = k();
    let marks = text_of("L").repeat(MAX_TEXT / 3) + " ";
    assert_eq!(kinds(&image, &marks), Ok(vec![5, 3]));
    assert_eq!(kinds(&image, &text_of("+L").repeat(MAX_TEXT / 4)), Ok([2, 5].repeat(MAX_TEXT / 4)));
    let apart = text_of("aL.L").repeat(MAX_TEXT / 8);
    assert_eq!(kinds(&image, &apart), Ok([1, 5, 2, 5].repeat(MAX_TEXT / 8)));
    assert_eq!(kinds(&image, &text_of("aL").repeat(MAX_TEXT / 4)), Err(Refusal::Mark(1)));
    let around = format!("a{}b", text_of("L").repeat(MAX_TEXT / 3 - 1));
    assert_eq!(kinds(&image, &around), Err(Refusal::Mark(1)));
    for (end, back) in [("aLb", 4), ("a.Lb", 4), ("aL.b", 5)] {
        let end = text_of(end);
        let front = text_of("aL.L").repeat((MAX_TEXT - 16) / 8);
        let text = front + &" ".repeat(MAX_TEXT - (MAX_TEXT - 16) / 8 * 8 - end.len()) + &end;
        assert_eq!(text.len(), MAX_TEXT);
        let place = (MAX_TEXT - back) as u64;
        assert_eq!(kinds(&image, &text), Err(Refusal::Mark(place)));
        let spoilt = text[..MAX_TEXT - 1].to_string() + "%";
        assert_eq!(kinds(&image, &spoilt), Err(Refusal::Characters(MAX_TEXT as u64 - 1)));
    }
}

/// Demand 3's exception: the character at the place, or the next after a medial, has another class.
fn changed_at(older: &Made, newer: &Made, text: &[u8], place: u64) -> bool {
    let (points, _) = utf8::decode(&text[place as usize..]);
    let changed =
        |i: usize| points.get(i).map_or(false, |p| older.class(p.point) != newer.class(p.point));
    changed(0) || (older.role(points[0].point) == role::MEDIAL && changed(1))
}

/// Short texts under images in which the same few characters have any class and role. What the older image accepts or
/// refuses with 14, the newer does too, and so on as demand 3 says.
#[test]
fn made_texts() {
    let (mut rng, mut tally) = (Rng::seeded(701), Tally::default());
    for _ in 0..runs(100_000) {
        let case = marked_case(&mut rng);
        let older = tokens(&case.older, &case.text);
        let newer = tokens(&case.newer, &case.text);
        compare_places(&case.older, &case.text);
        let safe = Image::check(&case.older).unwrap().count(&case.text).map_err(named);
        assert_eq!(safe, older.as_ref().map(|words| words.len() / RECORD_WORDS).map_err(|r| *r));
        let images = (parse(&case.older).unwrap(), parse(&case.newer).unwrap());
        match older {
            Err(Refusal::Characters(place))
                if changed_at(&images.0, &images.1, &case.text, place) =>
            {
                tally.name(if newer == older { "7 kept" } else { "7 moved" });
            }
            _ => {
                assert_eq!(newer, older, "{case:02X?}");
                tally.add(&older);
            }
        }
    }
    tally.close("marks", "ok,6,7,7 kept,7 moved,14");
}
