//! `luffinarc tokens` and `luffinarc hashtags`.

mod common;

use common::{image, room, run, run_with, DATA};
use luffinarc::Image;
use std::fs;

/// The tokens of a text by the library, as the command prints them.
fn records(image: &str, text: &[u8]) -> String {
    let bytes = fs::read(image).unwrap();
    let image = Image::check(&bytes).unwrap();
    let record = |t: luffinarc::Token| {
        format!("{} {} {} {}\n", t.kind.number(), t.range.start, t.range.end, t.line)
    };
    image.tokens(text).unwrap().map(record).collect()
}

#[test]
fn a_script() {
    let panel = format!("{DATA}/texts/panel.txt");
    let printed = run(&["tokens", &image("scripts-17.0"), &panel]);
    assert_eq!((printed.status, printed.err.as_str()), (0, ""));
    let shown =
        "1:1 syntax #\n1:2 blank \" \"\n1:3 identifier panel\n1:8 blank \" \"\n1:9 identifier 4\n";
    assert!(printed.out.starts_with(shown), "{}", printed.out);
    let names = "6:1 identifier 𞤲𞤣𞤭𞤴𞤢𞤥\n6:7 blank \" \"\n6:8 syntax =\n";
    assert!(printed.out.contains(names), "{}", printed.out);
    let medials = "3:1 identifier ciśnienie-max\n";
    assert!(printed.out.contains(medials), "{}", printed.out);
    assert!(printed.out.ends_with("6:29 lineend \"\\n\"\n"), "{}", printed.out);
}

#[test]
fn plain_numbers_are_those_of_the_library() {
    let (image, panel) = (image("scripts-17.0"), format!("{DATA}/texts/panel.txt"));
    let printed = run(&["tokens", "--records", &image, &panel]);
    assert_eq!(printed.status, 0);
    assert_eq!(printed.out, records(&image, &fs::read(&panel).unwrap()));
}

/// Lines and columns of the command, lines of the library.
#[test]
fn lines_are_those_of_the_library() {
    let image = image("unicode-16.0");
    let ends =
        ["\n", "\r", "\r\n", "\u{B}", "\u{C}", "\u{85}", "\u{2028}", "\u{2029}", "\n\r", "\r\r\n"];
    let mut text = String::new();
    for end in ends {
        text += &format!("ą{end}b c{end}{end}𞤲+d{end} ");
    }
    let shown = run_with(&["tokens", &image], text.as_bytes());
    let numbers = run_with(&["tokens", "--records", &image], text.as_bytes());
    assert_eq!((shown.status, numbers.status), (0, 0));
    assert!(numbers.out.lines().count() > 60);
    assert_eq!(shown.out.lines().count(), numbers.out.lines().count());
    for (line, record) in shown.out.lines().zip(numbers.out.lines()) {
        assert_eq!(line.split(':').next(), record.split(' ').nth(3), "{line}, {record}");
    }
}

#[test]
fn columns_count_characters() {
    let text = "ą𞤲\t=\r\nb  c";
    let printed = run_with(&["tokens", &image("unicode-16.0")], text.as_bytes());
    let expected = "1:1 identifier ą𞤲\n1:3 blank \"\\t\"\n1:4 syntax =\n1:5 lineend \"\\r\\n\"\n\
                    2:1 identifier b\n2:2 blank \"  \"\n2:4 identifier c\n";
    assert_eq!(printed.out, expected);
}

/// Marks that combine are part of a name as it is printed; what can't be seen is escaped.
#[test]
fn names_in_many_scripts() {
    let text = "বাংলা ไทย\u{E35} हिन्दी e\u{301} 压力 a\u{200C}b";
    let printed = run_with(&["tokens", &image("scripts-17.0")], text.as_bytes());
    let names: Vec<&str> = printed
        .out
        .lines()
        .filter_map(|line| line.split_once(" identifier "))
        .map(|two| two.1)
        .collect();
    assert_eq!(names, ["বাংলা", "ไทย\u{E35}", "हिन्दी", "e\u{301}", "压力", "\"a\\u{200c}b\""]);
}

#[test]
fn several_files_and_standard_input() {
    let room = room("several");
    let (one, two) = (room.join("one"), room.join("two"));
    fs::write(&one, "a").unwrap();
    fs::write(&two, "b+").unwrap();
    let (one, two) = (one.to_str().unwrap(), two.to_str().unwrap());
    let image = image("unicode-16.0");
    let printed = run_with(&["tokens", &image, one, "-", two], b"x");
    let expected = format!("{one}:1:1 identifier a\n<stdin>:1:1 identifier x\n{two}:1:1 identifier b\n{two}:1:2 syntax +\n");
    assert_eq!((printed.status, printed.out), (0, expected));
    let printed = run(&["tokens", "--records", &image, one, two]);
    assert_eq!(printed.out, format!("{one}:1 0 1 1\n{two}:1 0 1 1\n{two}:2 1 2 1\n"));
}

#[test]
fn json() {
    let room = room("json");
    let name = room.join("a\"b\\c");
    fs::write(&name, "a\u{301} \u{200E}+\n").unwrap();
    let printed = run(&["tokens", "--json", &image("unicode-16.0"), name.to_str().unwrap()]);
    let file = name.to_str().unwrap().replace('\\', "\\\\").replace('"', "\\\"");
    let object = |place: &str, kind: &str, range: &str, text: &str| {
        let (line, column) = place.split_once(':').unwrap();
        let (start, end) = range.split_once(' ').unwrap();
        format!(
            "{{\"file\":\"{file}\",\"line\":{line},\"column\":{column},\"kind\":\"{kind}\",\
             \"start\":{start},\"end\":{end},\"text\":\"{text}\"}}\n"
        )
    };
    let expected = [
        object("1:1", "identifier", "0 3", "a\u{301}"),
        object("1:3", "blank", "3 4", " "),
        object("1:4", "mark", "4 7", "\\u200e"),
        object("1:5", "syntax", "7 8", "+"),
        object("1:6", "lineend", "8 9", "\\n"),
    ];
    assert_eq!(printed.out, expected.concat());
}

#[test]
fn texts_on_one_line() {
    // A line end inside an identifier, by a profile; quotes and backslashes.
    let room = room("one-line");
    let file = room.join("image");
    let range = |point: u32, class| luffinarc::Range { first: point, last: point, class };
    let ranges = [
        range(0x22, luffinarc::Class::Start),
        range(0x41, luffinarc::Class::Start),
        range(0x5C, luffinarc::Class::Start),
        range(0x301, luffinarc::Class::Start),
        range(0x202E, luffinarc::Class::Start),
    ];
    let profile = luffinarc::Profile::new(&[(0x0A, luffinarc::Role::Start)]);
    fs::write(&file, luffinarc::write_image(1, &ranges, &profile).unwrap()).unwrap();
    let image = file.to_str().unwrap();
    let shown = |text: &str| run_with(&["tokens", image], text.as_bytes()).out;
    assert_eq!(shown("A\nA"), "1:1 identifier \"A\\nA\"\n");
    assert_eq!(shown("A\"\\"), "1:1 identifier \"A\\\"\\\\\"\n");
    assert_eq!(shown("A\\"), "1:1 identifier A\\\n");
    assert_eq!(shown("\u{301}A"), "1:1 identifier \"\\u{301}A\"\n");
    assert_eq!(shown("A\u{301}"), "1:1 identifier A\u{301}\n");
    assert_eq!(shown("A\u{202E}"), "1:1 identifier \"A\\u{202e}\"\n");
}

#[test]
fn hashtags() {
    let text = "Pump 2 runs hot: #pump_2,\n##ą #";
    let image = image("unicode-16.0");
    let printed = run_with(&["hashtags", &image], text.as_bytes());
    assert_eq!(
        (printed.status, printed.out.as_str()),
        (0, "1:18 hashtag #pump_2\n2:2 hashtag #ą\n")
    );
    let printed = run_with(&["hashtags", "--records", &image], text.as_bytes());
    assert_eq!(printed.out, "6 17 24 1\n6 27 30 2\n");
    let printed = run_with(&["hashtags", "--json", &image], text.as_bytes());
    let first = printed.out.lines().next().unwrap();
    let expected = "{\"file\":\"<stdin>\",\"line\":1,\"column\":18,\"kind\":\"hashtag\",\"start\":17,\"end\":24,\"text\":\"#pump_2\"}";
    assert_eq!(first, expected);
    // No text is refused for its characters.
    assert_eq!(run_with(&["hashtags", &image], "€ 1".as_bytes()).status, 0);
    let refused = run_with(&["hashtags", "--json", &image], b"#a\xFF");
    assert_eq!(refused.status, 1);
    assert!(
        refused.out.starts_with("{\"file\":\"<stdin>\",\"refusal\":{\"number\":6,"),
        "{}",
        refused.out
    );
}

#[test]
fn empty_texts() {
    for command in ["tokens", "hashtags"] {
        let printed = run(&[command, &image("unicode-16.0")]);
        assert_eq!((printed.status, printed.out.as_str(), printed.err.as_str()), (0, "", ""));
    }
}
