//! Refusals as they are told: place, line, reason, what to do; and the exit status.

mod common;

use common::{image, room, run, run_with, Run, DATA};
use std::fs;

/// The message about a text on standard input, under an image of the data.
fn told(name: &str, text: &[u8]) -> String {
    let Run { status, out, err } = run_with(&["tokens", &image(name)], text);
    assert_eq!((status, out.as_str()), (1, ""), "{err}");
    err
}

#[test]
fn a_digit() {
    let expected = "\
error[7]: no token begins here
 --> <stdin>:2:5
  |
2 | x = 42
  |     ^ U+0034 '4' has class Nonstart in this image
  |
  = help: a digit can't begin an identifier in this image: a profile with the line `U+0030..U+0039 Start` lets it (`luffinarc help make`)
";
    assert_eq!(told("unicode-16.0", b"y\nx = 42\nz\n"), expected);
    assert_eq!(run_with(&["tokens", &image("scripts-16.0")], b"y\nx = 42\nz\n").status, 0);
}

#[test]
fn an_unassigned_character() {
    // U+088F is new in 17.0.
    let text = "a = \u{88F}\n";
    let err = told("scripts-16.0", text.as_bytes());
    let place = " --> <stdin>:1:5\n";
    let help = "  = help: Unassigned in the image of version 16.0.0: a newer image may have it\n";
    assert!(err.contains(place) && err.ends_with(help), "{err}");
    assert!(
        err.contains("^ U+088F") && err.contains(" has class Unassigned in this image\n"),
        "{err}"
    );
    assert_eq!(run_with(&["tokens", &image("scripts-17.0")], text.as_bytes()).status, 0);
    let err = told("scripts-17.0", "\u{FFFE}".as_bytes());
    assert!(err.ends_with("help: a noncharacter: no version of Unicode will assign it\n"), "{err}");
}

#[test]
fn bad_bytes() {
    let expected = "\
error[6]: ill-formed UTF-8
 --> <stdin>:2:8
  |
2 | name = <E2><82> x
  |        ^^^^^^^^ bytes in hex: E2 82
  |
  = help: store the file as UTF-8
";
    assert_eq!(told("unicode-16.0", b"ok\nname = \xE2\x82 x\n"), expected);
    assert!(told("unicode-16.0", b"\xF0\x9F\x98").contains("bytes in hex: F0 9F 98\n"));
    assert!(told("unicode-16.0", b"a\xC0\x80\xFFb")
        .contains("1 | a<C0><80><FF>b\n  |  ^^^^ bytes in hex: C0\n"));
}

#[test]
fn a_direction_mark() {
    let expected = "\
error[14]: a direction mark parts a token
 --> <stdin>:1:2
  |
1 | a<U+200E>b
  |  ^^^^^^^^ U+200E, of class White, parts it
  |
  = help: without it this would be one token: take it out, or put a blank beside it
";
    assert_eq!(told("unicode-16.0", "a\u{200E}b".as_bytes()), expected);
    let several = told("unicode-16.0", "a\u{200E}\u{200F}b".as_bytes());
    let underlined = "  |  ^^^^^^^^^^^^^^^^ these marks, of class White, part it\n";
    assert!(several.contains(underlined) && several.contains("take them out"), "{several}");
    let many = format!("a{}b", "\u{200F}".repeat(300_000));
    assert!(told("unicode-16.0", many.as_bytes()).len() < 2000);
}

#[test]
fn other_characters() {
    let help = |text: &str| {
        let err = told("scripts-16.0", text.as_bytes());
        err.lines().last().unwrap().trim_start().to_string()
    };
    assert_eq!(help("\u{FEFF}a"), "= help: a byte order mark: store the file without it");
    assert_eq!(
        help("a\u{A0}b"),
        "= help: it looks like a blank, and is none in this image: type U+0020"
    );
    assert_eq!(help("a\u{202E}b"), "= help: it can't be seen: take it out");
    assert_eq!(help("# \u{200D}"), "= help: it can't be seen: take it out");
    assert_eq!(help("\u{26A0}\u{FE0F}"), "= help: it can't be seen: take it out");
    let digit = "= help: a digit can't begin an identifier in this image: a profile with the line `U+1E951 Start` lets it (`luffinarc help make`)";
    assert_eq!(help("\u{1E951}"), digit);
    let null = "= help: a null character: store the file as UTF-8, if it is UTF-16";
    assert_eq!(help("a\0"), null);
    let euro = "= help: it is in no token of this image: a profile with the line `U+20AC Start` lets it (`luffinarc help make`)";
    assert_eq!(help("€"), euro);
    let accent = told("scripts-16.0", "+\u{301}".as_bytes());
    assert!(
        accent.contains("1 | +\u{25CC}\u{301}\n  |  ^ U+0301 '\u{25CC}\u{301}' has class Nonstart"),
        "{accent}"
    );
}

#[test]
fn medials_and_characters_taken_out() {
    let room = room("medials");
    let file = room.join("image");
    let letters = luffinarc::Range { first: 0x61, last: 0x7A, class: luffinarc::Class::Start };
    let profile =
        luffinarc::Profile::new(&[(0x71, luffinarc::Role::Other), (0xB7, luffinarc::Role::Medial)]);
    fs::write(&file, luffinarc::write_image(1, &[letters], &profile).unwrap()).unwrap();
    let name = file.to_str().unwrap();
    assert_eq!(run_with(&["tokens", name], "a·b".as_bytes()).status, 0);
    let told = run_with(&["tokens", name], "a·".as_bytes()).err;
    assert!(told.contains("a medial stands inside an identifier"), "{told}");
    let told = run_with(&["tokens", name], b"q").err;
    assert!(told.contains("the image's profile makes it Other"), "{told}");
}

/// No advice that leads to another refusal: blanks where the image has none.
#[test]
fn an_image_without_blanks() {
    let file = room("no-blanks").join("image");
    let class = luffinarc::Class::Start;
    let marks = luffinarc::Range { first: 0x200E, last: 0x200F, class: luffinarc::Class::White };
    let ranges = [
        luffinarc::Range { first: 0x20, last: 0x20, class: luffinarc::Class::Other },
        luffinarc::Range { first: 0x61, last: 0x7A, class },
        marks,
    ];
    fs::write(&file, luffinarc::write_image(1, &ranges, &Default::default()).unwrap()).unwrap();
    let told = |text: &str| run_with(&["tokens", file.to_str().unwrap()], text.as_bytes()).err;
    assert!(told("a b")
        .ends_with("a profile with the line `U+0020 Start` lets it (`luffinarc help make`)\n"));
    assert!(told("a\u{200E}b").ends_with("help: without it this would be one token: take it out\n"));
}

/// Wide characters take two columns, marks none; tabs are shown as four.
#[test]
fn underlined_at_its_column() {
    let err = told("unicode-16.0", "压力\te\u{301} 1".as_bytes());
    assert!(err.contains(" --> <stdin>:1:7\n"), "{err}");
    assert!(err.contains("1 | 压力    e\u{301} 1\n  |           ^ U+0031"), "{err}");
}

#[test]
fn a_long_line_is_cut_and_says_so() {
    let text = format!("{}1{}", "a ".repeat(1000), " b".repeat(1000));
    let err = told("unicode-16.0", text.as_bytes());
    let lines: Vec<&str> = err.lines().collect();
    assert_eq!(lines[1], " --> <stdin>:1:2001");
    let shown = lines[3].strip_prefix("1 | ").unwrap();
    assert!(shown.starts_with('…') && shown.ends_with('…'), "{shown}");
    assert_eq!(shown.chars().count(), 1 + 60 + 1 + 40 + 1);
    let caret = lines[4].find('^').unwrap() - "  | ".len();
    assert_eq!(shown.chars().nth(caret), Some('1'));
}

/// However little room the characters of a line take.
#[test]
fn a_line_of_marks_is_cut() {
    let text = format!("a{}\u{20AC}", "\u{301}".repeat(300_000));
    let err = told("unicode-16.0", text.as_bytes());
    assert!(err.len() < 1000 && err.contains("| …\u{301}"), "{err}");
    let bytes = vec![0xFF; 1_048_576];
    let err = told("unicode-16.0", &bytes);
    assert!(err.len() < 1000 && err.contains("1 | <FF><FF>") && err.contains("<FF>…\n"), "{err}");
}

#[test]
fn utf16() {
    let err = told("unicode-16.0", b"\xFF\xFEa\0");
    let help = "= help: it begins as UTF-16 does: store the file as UTF-8\n";
    assert!(err.contains("<FF><FE>a<U+0000>\n") && err.ends_with(help), "{err}");
}

#[test]
fn a_line_end_of_another_class() {
    // M has no class for LINE FEED.
    let err = told("m", b"a\nb");
    assert!(err.contains("1 | a<U+000A>\n  |  ^^^^^^^^ U+000A has class Unassigned"), "{err}");
}

#[test]
fn a_text_that_is_too_long() {
    let text = vec![b'a'; 1_048_577];
    let expected = "error[5]: the text is too long\n --> <stdin>\n  = note: a text has at most 1,048,576 bytes\n";
    assert_eq!(told("unicode-16.0", &text), expected);
    let all = run_with(&["tokens", "--records", &image("unicode-16.0")], &text[1..]);
    assert_eq!((all.status, all.out.as_str()), (0, "1 0 1048576 1\n"));
}

#[test]
fn refusals_in_json() {
    let printed = run_with(&["tokens", "--json", &image("unicode-16.0")], b"a\n\xE2\x82");
    let expected = "{\"file\":\"<stdin>\",\"refusal\":{\"number\":6,\"name\":\"IllFormed\",\
         \"meaning\":\"ill-formed UTF-8\",\"carried\":[2,2]},\
                    \"line\":2,\"column\":1,\"label\":\"bytes in hex: E2 82\",\"notes\":[\"store the file as UTF-8\"]}\n";
    assert_eq!((printed.status, printed.out.as_str()), (1, expected));
}

/// A refused text is told, and the next is read; the worst status counts.
#[test]
fn several_texts() {
    let room = room("several-refused");
    let (bad, good) = (room.join("bad"), room.join("good"));
    fs::write(&bad, "a 1").unwrap();
    fs::write(&good, "b").unwrap();
    let (bad, good) = (bad.to_str().unwrap(), good.to_str().unwrap());
    let image = image("unicode-16.0");
    let printed = run(&["tokens", &image, bad, good]);
    assert_eq!((printed.status, printed.out), (1, format!("{good}:1:1 identifier b\n")));
    let missing = room.join("missing");
    let printed = run(&["tokens", &image, missing.to_str().unwrap(), bad, good]);
    assert_eq!((printed.status, printed.out), (2, format!("{good}:1:1 identifier b\n")));
    let first = printed.err.lines().next().unwrap();
    assert_eq!(first, format!("luffinarc: {}: No such file or directory", missing.display()));
}

#[test]
fn check() {
    let image = image("scripts-17.0");
    let panel = format!("{DATA}/texts/panel.txt");
    let printed = run_with(&["check", &image, &panel, "-"], b"a\n1 \xFF");
    let expected = format!(
        "{image}: accepted, Unicode 17.0.0, 1,519 ranges, a profile of 13 entries\n{panel}: accepted, 52 tokens\n<stdin>: refused (6) at 2:3\n"
    );
    assert_eq!((printed.status, printed.out), (1, expected));
    assert!(printed.err.starts_with("error[6]: ill-formed UTF-8\n --> <stdin>:2:3\n"));
    assert_eq!(run(&["check", &image, &panel]).status, 0);
    assert_eq!(run(&["check", &image]).status, 0);
}

/// Colours where they are asked for, and nowhere else in these runs, which have no terminal.
#[test]
fn colours() {
    let image = image("unicode-16.0");
    let plain = told("unicode-16.0", b"1");
    assert!(!plain.contains('\x1b'));
    let painted = run_with(&["tokens", "--color", "always", &image], b"1").err;
    assert!(painted.starts_with("\x1b[1;31merror[7]\x1b[0m\x1b[1m: no token begins here\x1b[0m\n"));
    let mut bare = String::new();
    let mut pieces = painted.split('\x1b');
    bare += pieces.next().unwrap();
    pieces.for_each(|piece| bare += piece.split_once('m').unwrap().1);
    assert_eq!(bare, plain);
    assert_eq!(run_with(&["tokens", "--color=never", &image], b"1").err, plain);
}
