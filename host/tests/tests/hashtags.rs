//! The list of hashtags against the independent reader and against tags spelled out.

use luffinarc::{Hashtag, Image, HASHTAG_KIND, MAX_TEXT, RECORD_WORDS};
use luffinarc_reader::cases::*;
use luffinarc_reader::hashtag::SIGNS;
use luffinarc_reader::image::{parse, Image as Made, Range};
use luffinarc_reader::line::LINE_ENDS;
use luffinarc_reader::{class, role, Calls, Profile, Reader, Refusal};
use luffinarc_tests::{data, named, runs, say, Library};

const RUNS: usize = 4000;

/// The call and the reader's, with so much room, give the same and leave the same words.
fn compare_with(image: &[u8], text: &[u8], room: usize) -> Result<usize, Refusal> {
    let (mut words, mut expected) = (vec![7; room], vec![7; room]);
    let result = Library.hashtags(image, text, &mut words);
    assert_eq!(result, Reader.hashtags(image, text, &mut expected), "{text:02X?}, room {room}");
    assert!(words == expected, "{text:02X?}, room {room}");
    result
}

/// Compares with all room, with the exact, one word less, some more and none; gives the number of tags.
fn compare(image: &[u8], text: &[u8]) -> Result<usize, Refusal> {
    let result = compare_with(image, text, RECORD_WORDS * (text.len() / 2));
    let exact = RECORD_WORDS * result.unwrap_or(2);
    for room in [exact, exact.saturating_sub(1), exact + 5, 0] {
        compare_with(image, text, room).ok();
    }
    result
}

#[test]
fn made_lists() {
    let (mut rng, mut tally) = (Rng::seeded(301), Tally::default());
    for _ in 0..runs(RUNS) {
        let case = hashtag_case(&mut rng);
        let result = compare_with(&case.image, &case.text, case.room);
        tally.add(&result);
        let image = match Image::check(&case.image) {
            Ok(image) => image,
            Err(_) => continue,
        };
        let mut words = vec![7; case.room];
        let again = image.list_hashtags(&case.text, &mut words);
        assert_eq!(again.map_err(named), result, "{case:02X?}");
        let count = match result {
            Ok(count) => count,
            Err(_) => continue,
        };
        let record =
            |tag: Hashtag| [HASHTAG_KIND, tag.range.start as u32, tag.range.end as u32, tag.line];
        let records = image.hashtags(&case.text).unwrap().into_iter().flat_map(record);
        assert!(records.eq(words[..RECORD_WORDS * count].iter().copied()), "{case:02X?}");
    }
    tally.close("hashtags", "ok,1,2,3,4,5,6,8");
}

/// The image of a file, with a profile.
fn with_profile(name: &str, entries: &[(u32, u32)]) -> Vec<u8> {
    let plain = parse(&data(name)).unwrap();
    image_of(&Made { profile: Profile::of(entries), ..plain })
}

/// M with 5F as part of hashtags.
fn p() -> Vec<u8> {
    with_profile("images/m.img", &[(0x2E, role::MEDIAL), (0x5F, role::HASHTAG)])
}

/// The tags of a text, by all calls.
fn tags<'a>(image: &[u8], text: &'a str) -> Vec<&'a str> {
    let count = compare(image, text.as_bytes()).unwrap();
    let tags = Image::check(image).unwrap().hashtags(text).unwrap();
    assert_eq!(tags.len(), count);
    tags.into_iter().map(|tag| &text[tag.range]).collect()
}

#[test]
fn small_texts() {
    let image = p();
    let cases: [(&str, &[&str]); 16] = [
        ("", &[]),
        ("#", &[]),
        ("#a", &["#a"]),
        ("##a", &["#a"]),
        ("a#b", &[]),
        ("#a#b", &["#a"]),
        ("#a##b", &["#a", "#b"]),
        ("#1.x", &["#1"]),
        ("#_ _#a", &["#_"]),
        ("a.#b #", &["#b"]),
        ("%#a%", &["#a"]),
        ("# a", &[]),
        ("a #1", &["#1"]),
        ("\u{FF03}a\u{FE5F}b", &["\u{FF03}a"]),
        ("\u{FE5F}\u{FF03}#a", &["#a"]),
        ("é#a", &["#a"]),
    ];
    for (text, expected) in cases {
        assert_eq!(tags(&image, text), expected, "{text}");
    }
}

/// M2 in which the signs have a class, 0 for none, and a role, 0 for none.
fn with_signs(class: u32, role: u32) -> Vec<u8> {
    let mut image = parse(&data("images/m2.img")).unwrap();
    if class != class::UNASSIGNED {
        image.ranges.extend(SIGNS.map(|point| Range { first: point, last: point, class }));
        image.ranges.sort_by_key(|range| range.first);
    }
    let entries = SIGNS.map(|point| (point, role));
    let profile = Profile::of(if role == 0 { &[] } else { &entries });
    image_of(&Made { profile, ..image })
}

/// Any two signs, whatever their class and role: they begin tags, and are in none.
#[test]
fn signs_with_classes_and_roles() {
    let signs = SIGNS.map(|point| char::from_u32(point).unwrap());
    let both: Vec<(char, char)> = signs.iter().flat_map(|&a| signs.map(|b| (a, b))).collect();
    for number in 0..36 {
        let image = with_signs(number / 6, number % 6);
        for &(sign, other) in &both {
            let tag = format!("{sign}ab1");
            assert_eq!(tags(&image, &format!("{other}{tag}")), [&tag]);
            assert_eq!(tags(&image, &format!("a{other}{tag}")), [&tag]);
            assert_eq!(tags(&image, &format!("{tag}{other}c")), [&tag]);
            assert_eq!(tags(&image, &format!("{sign}{other}")), [""; 0]);
            assert_eq!(tags(&image, &format!("é{tag}")), [""; 0]);
        }
    }
}

/// Flowing text and its tags, under the 16.0 image with a profile that takes `+`, `-` and a spanner into tags.
const PROSE: [(&str, &[&str]); 13] = [
    (
        "Night shift took over at 22:00. Pump 2 runs hot again (#pump_2 #overheating), see ticket \
         C#7 and issue # 12; mail ops#panel. Filed under #night-shift, #r2d2 and ##leak.",
        &["#pump_2", "#overheating", "#night-shift", "#r2d2", "#leak"],
    ),
    ("I love #C++ and #don't; #2026!", &["#C++", "#don", "#2026"]),
    (
        "Zawór wejściowy zaciął się o świcie. #zawór_wejściowy, „#ciśnienie”, źródło#żądanie; \
         #Łódź/#Gdańsk — wymienić uszczelkę #🔧.",
        &["#zawór_wejściowy", "#ciśnienie", "#Łódź", "#Gdańsk", "#🔧"],
    ),
    ("gęś\u{301}#nie #z\u{307}o\u{301}łw", &["#z\u{307}o\u{301}łw"]),
    ("𞤢𞤤𞤳𞤵𞤤𞤫 𞤲𞤣𞤭𞤴𞤢𞤥 #𞤲𞤣𞤭𞤴𞤢𞤥 𞤸𞤢𞤲𞤣𞤫⹁ #𞤨𞤮𞤥𞤨𞤵_𞥒𞥕. 𞤣𞤮𞤼𞥅𞤢𞤤#𞤲𞤣𞤢", &["#𞤲𞤣𞤭𞤴𞤢𞤥", "#𞤨𞤮𞤥𞤨𞤵_𞥒𞥕"]),
    ("आज सुबह #वाल्व_४ बदला गया। दबाव#ठीक नहीं; (#रात्रि_पाली)", &["#वाल्व_४", "#रात्रि_पाली"]),
    // In 16.0 joiners and the middle dot of katakana are XID_Continue.
    ("#क्ष, #क्\u{200D}ष\u{200E}", &["#क्ष", "#क्\u{200D}ष"]),
    (
        "夜勤は#ポンプ を止めた。＃交代、 #圧力計２号 を確認。#バルブ・#漏れ",
        &["＃交代", "#圧力計２号", "#バルブ・"],
    ),
    ("「﹟東京」＃大阪﹟京都", &["﹟東京", "＃大阪"]),
    (
        "تم إصلاح #مضخة_٢، ثم #صمّام_الدخل؛ راجع ضغط#عال و ＃نوبة_الليل.",
        &["#مضخة_٢", "#صمّام_الدخل", "＃نوبة_الليل"],
    ),
    ("\u{202B}#\u{200F}لا\u{202C} \u{200F}#نعم\u{200F}", &["#نعم"]),
    ("Давление #норма, ελληνικά #όριο· 한국어 #압력_밸브", &["#норма", "#όριο·", "#압력_밸브"]),
    ("עברית #לחץ־גבוה 👩‍💻#🙂 #🔧🔧#x", &["#לחץ", "#🔧🔧"]),
];

#[test]
fn prose() {
    let entries = [(0x2B, role::HASHTAG), (0x2D, role::HASHTAG), (0x1F527, role::HASHTAG)];
    let image = with_profile("images/unicode-16.0.img", &entries);
    let mut all = (String::new(), Vec::new());
    for (text, expected) in PROSE {
        assert_eq!(tags(&image, text), expected, "{text}");
        all.0 += text;
        all.0 += "\n";
        all.1.extend_from_slice(expected);
    }
    assert_eq!(tags(&image, &all.0), all.1);
    let plain = data("images/unicode-16.0.img");
    assert_eq!(tags(&plain, "#C++ #night-shift #🔧"), ["#C", "#night"]);
}

/// Compares every text of at most five pieces; gives how many there are and how many tags they have.
fn compare_all(image: &[u8], pieces: &[&[u8]]) -> (usize, usize) {
    let (mut texts, mut tags) = (0, 0);
    for length in 0..=5 {
        for number in 0..pieces.len().pow(length) {
            let piece = |i| pieces[number / pieces.len().pow(i) % pieces.len()];
            let text: Vec<u8> = (0..length).flat_map(piece).copied().collect();
            tags += compare(image, &text).unwrap_or(0);
            texts += 1;
        }
    }
    (texts, tags)
}

/// Every text of at most five characters from seven: two signs, a letter, a digit, one with role 5, a medial, a blank.
#[test]
fn every_short_text() {
    let (texts, tags) = compare_all(&p(), &[b"#", b"a", b"1", b"_", b".", b" ", b"\xEF\xBC\x83"]);
    say(&format!("short texts of characters: {texts}, tags {tags}"));
    // The bytes of two signs apart, and a letter of two bytes in one piece.
    let image = with_profile("images/m2.img", &[(0xFF04, role::HASHTAG)]);
    let pieces: [&[u8]; 7] = [b"#", b"a", b"\xEF", b"\xBC", b"\x83", b"\x84", b"\xC3\xA9"];
    let (texts, tags) = compare_all(&image, &pieces);
    say(&format!("short texts of bytes: {texts}, tags {tags}"));
}

/// Every scalar value after a sign and right before another, under an image with roles: one of the two begins a tag.
#[test]
fn every_character() {
    let entries = [(0x23, role::START), (0x2D, role::HASHTAG), (0x61, role::OTHER)];
    let bytes = with_profile("images/unicode-16.0.img", &entries);
    let (image, made) = (Image::check(&bytes).unwrap(), parse(&bytes).unwrap());
    let classes = made.table();
    for c in (0..=0x10FFFF).filter_map(char::from_u32) {
        let continues = match (c, made.role(c.into())) {
            ('#' | '\u{FE5F}' | '\u{FF03}', _) => false,
            (_, 0) => matches!(classes[c as usize].into(), class::START | class::NONSTART),
            (_, role) => role == role::HASHTAG,
        };
        let text = format!("#{c} {c}\u{FF03}b");
        let ends_line = LINE_ENDS.contains(&c.into());
        let last =
            Hashtag { range: text.len() - 4..text.len(), line: if ends_line { 3 } else { 1 } };
        let tag = if continues { Hashtag { range: 0..1 + c.len_utf8(), line: 1 } } else { last };
        assert_eq!(image.hashtags(&text), Ok(vec![tag]), "{c:?}");
    }
}

/// Texts about the longest: of tags, of one tag, of signs, without any, and spoilt at their end.
#[test]
fn lengths() {
    let image = with_profile("images/unicode-16.0.img", &[(0x2D, role::HASHTAG)]);
    let mut results = Tally::default();
    let fills =
        ["#a", "#a ", "a", "#", "＃", "a-b #c. ", "shift note ", "zażółć #gęś ", "𞤣𞤮𞤼 #𞤢𞤤 "];
    for length in [MAX_TEXT - 1, MAX_TEXT, MAX_TEXT + 1] {
        for fill in fills {
            let mut text = fill.repeat(length / fill.len() + 1).into_bytes();
            text.truncate(length);
            results.add(&compare(&image, &text));
            text[0] = b'#';
            for last in [b'#', b'a', 0x80] {
                text[length - 1] = last;
                results.add(&compare(&image, &text));
            }
        }
    }
    results.close("lengths of texts with hashtags", "ok,5,6");
}

/// The longest text of signs and letters in turn has one tag, since a letter stands before each other sign; with a sign
/// more after each letter it has as many as there can be.
#[test]
fn most_tags() {
    let image = data("images/m.img");
    let (joined, apart) = ("#a".repeat(MAX_TEXT / 2), "#a#".repeat(MAX_TEXT / 3));
    assert_eq!(compare(&image, joined.as_bytes()), Ok(1));
    assert_eq!(compare(&image, apart.as_bytes()), Ok(MAX_TEXT / 3));
    let image = Image::check(&image).unwrap();
    let mut words = vec![7; RECORD_WORDS * (MAX_TEXT / 3) + 1];
    assert_eq!(image.list_hashtags(&apart, &mut words), Ok(MAX_TEXT / 3));
    for (i, record) in words.chunks_exact(RECORD_WORDS).enumerate() {
        let start = 3 * i as u32;
        assert_eq!(record, [HASHTAG_KIND, start, start + 2, 1]);
    }
    assert_eq!(words.last(), Some(&7));
    let one = image.hashtags(&format!("#{}", "a".repeat(MAX_TEXT - 1))).unwrap();
    assert_eq!(one, [Hashtag { range: 0..MAX_TEXT, line: 1 }]);
}
