//! Sources of every form, and faults in their lines.

use crate::room::{failed, make, properties, short, with_lines, Room, Span, FILES};
use std::fs;

/// The assigned ranges of the room's short file.
fn assigned(room: &Room) -> Vec<Span> {
    properties(&room.text("Assigned.txt")).remove(0).1
}

/// The ranges between these.
fn gaps(spans: &[Span]) -> Vec<Span> {
    let firsts = std::iter::once(0).chain(spans.iter().map(|span| span.1 + 1));
    let lasts = spans.iter().map(|span| span.0).chain([0x110000]);
    firsts.zip(lasts).filter(|(first, next)| first < next).map(|(a, b)| (a, b - 1)).collect()
}

/// A short file with the first lines and the comments of the database's own files.
fn in_full(name: &str, text: &str) -> String {
    let mut full =
        format!("# {name}-16.0.0.txt\n# Date: 2024-05-31, 18:09:38 GMT\n# © 2024 Unicode®\n");
    for line in text.lines().skip(1) {
        full += &match line.split_once(" ; ") {
            Some((field, value)) => format!("{field:14}; {value} # Lo   [9] NAME..NAME\n"),
            None => format!("\n{line}\n"),
        };
    }
    full
}

#[test]
fn files_of_the_database() {
    let room = Room::new("full");
    for name in FILES {
        let stem = name.strip_suffix(".txt").unwrap();
        room.put(name, in_full(stem, &room.text(name)));
        room.makes_reference();
    }
    room.put("PropList.txt", room.text("PropList.txt").replace('\n', "\r\n"));
    room.makes_reference();
    room.put("PropList.txt", room.text("PropList.txt") + "\r\n \r\n");
    room.makes_reference();
}

#[test]
fn from_general_category() {
    let room = Room::new("category");
    let spans = assigned(&room);
    let name = "extracted/DerivedGeneralCategory.txt";
    let gaps = ("Cn".to_string(), gaps(&spans));
    let (first, rest) = (("Lu".to_string(), spans[..9].to_vec()), spans[9..].to_vec());
    let all = vec![gaps, first, ("Lo".to_string(), rest)];
    let text = short(&all);
    room.remove("Assigned.txt");
    room.put("DerivedGeneralCategory.txt", &text);
    room.makes_reference();
    fs::create_dir(room.folder.join("extracted")).unwrap();
    fs::rename(room.folder.join("DerivedGeneralCategory.txt"), room.folder.join(name)).unwrap();
    room.makes_reference();
    room.put(name, in_full("DerivedGeneralCategory", &text));
    room.makes_reference();
    room.put(name, with_lines(&text, "0041 ; Age\n# Total code points: 1"));
    room.fails("Age is no General_Category");
    room.put(name, with_lines(&text, "0041 ; Ll\n# Total code points: 1"));
    room.fails("U+0041 has more than one General_Category");
    room.put(name, with_lines(&text, "0041 ; Ll"));
    room.fails("after the lines of Ll");
    for (lost, message) in ["U+0378 has no", "U+0000 has no", "has no"].iter().enumerate() {
        let mut some = all.clone();
        some.remove(lost);
        room.put(name, short(&some));
        room.fails(message);
    }
    room.put(name, text.replace("16.0,", "15.0,"));
    room.fails("tells Unicode 15.0, not 16.0");
}

#[test]
fn missing_and_wrong_files() {
    for name in FILES {
        let room = Room::new(&format!("missing-{name}"));
        let file = room.folder.join(name);
        room.remove(name);
        room.fails(name);
        fs::create_dir(&file).unwrap();
        room.fails(&format!("{name}: Is a directory"));
        fs::remove_dir(&file).unwrap();
        for empty in ["", "\n", " \r\n\n"] {
            room.put(name, empty);
            room.fails(&format!("{name}: is empty"));
        }
        room.put(name, b"# Unicode 16.0, for a test\n\xFF\n# EOF\n");
        room.fails(&format!("{name}: line 2: not UTF-8"));
        room.put(name, "# Unicode 16.0, for a test\n# EOF\n");
        room.fails(&format!("{name}: no line for"));
        room.fails_with(&file, None, &format!("{name}: not a folder"));
    }
    let room = Room::new("missing");
    room.fails_with(&room.path.join("nowhere"), None, "nowhere: No such file or directory");
    room.fails_with(&room.path, None, "DerivedCoreProperties.txt: No such file or directory");
}

#[test]
fn versions() {
    let room = Room::new("versions");
    for name in FILES {
        let (text, stem) = (room.text(name), name.strip_suffix(".txt").unwrap());
        let lines = text.split_once('\n').unwrap().1;
        let first_lines = [
            ("# Unicode 15.0, read".to_string(), "line 1: tells Unicode 15.0, not 16.0"),
            ("# Unicode 16.0.0, read".to_string(), "tells Unicode 16.0.0, not 16.0"),
            (format!("# {stem}-15.0.0.txt"), "line 1: tells Unicode 15.0.0, not 16.0.0"),
            (format!("# {stem}-16.0.1.txt"), "tells Unicode 16.0.1, not 16.0.0"),
            (format!("# {stem}-16.0.0d5.txt"), "tells Unicode 16.0.0d5, not 16.0.0"),
            (format!("# {stem}-16.0.0"), "tells no version"),
            ("# Scripts-16.0.0.txt".to_string(), "tells no version"),
            ("# Unicode 16.0".to_string(), "tells no version"),
            ("# \x1B[2J\r\r".to_string(), "tells no version"),
            ("0041 ; X".to_string(), "tells no version"),
            (String::new(), "tells no version"),
        ];
        for (first, message) in first_lines {
            room.put(name, format!("{first}\n{lines}"));
            room.fails(message);
        }
        room.put(name, lines);
        room.fails("tells no version");
        room.put(name, &text);
    }
    let out = room.path.join("image");
    let line = failed(make("15.0.0", &room.folder, None, &out));
    assert!(
        line.contains("DerivedCoreProperties.txt: line 1: tells Unicode 16.0, not 15.0"),
        "{line}"
    );
}

/// A short file of A.B is of A.B.0.
#[test]
fn update_versions() {
    let room = Room::new("updates");
    let out = room.path.join("image");
    for name in FILES {
        let line = failed(make("16.0.1", &room.folder, None, &out));
        assert!(line.ends_with("line 1: tells Unicode 16.0, not 16.0.1\n"), "{line}");
        room.put(name, room.text(name).replacen("Unicode 16.0,", "Unicode 16.0.1,", 1));
    }
    assert!(make("16.0.1", &room.folder, None, &out).status.success());
}

/// As many ranges as an image may have, and one more: of a block every second code point is assigned.
#[test]
fn most_ranges() {
    let room = Room::new("ranges");
    let mut spans = assigned(&room);
    // The 16.0 image has 1,498 ranges, two of them from here on.
    spans.retain(|&(_, last)| last < 0xF0000);
    let put = |more: u32| {
        let more = (0..more).map(|i| (0xF0000 + 2 * i, 0xF0000 + 2 * i));
        let all = spans.iter().copied().chain(more).collect();
        room.put("Assigned.txt", short(&vec![("Assigned".to_string(), all)]));
    };
    put(2600);
    let output = make("16.0.0", &room.folder, None, &room.path.join("image"));
    assert!(String::from_utf8_lossy(&output.stdout).contains(" 4,096 ranges, "));
    put(2601);
    room.fails("luffinarc: the writer answers 2: 4097 ranges, at most 4096\n");
}

#[test]
fn malformed_lines() {
    let long = "x".repeat(100_000);
    let lines = [
        ("0041", "not of the form HEX ; PROPERTY: 0041"),
        ("0041..0040 ; X", "U+0041..U+0040 ends before it begins"),
        ("110000 ; X", "U+110000 is above U+10FFFF"),
        ("0041..110000 ; X", "U+110000 is above U+10FFFF"),
        ("G ; X", "G is no code point"),
        ("0041 ;", "not of the form"),
        ("41 ; X", "41 is no code point"),
        ("+0041 ; X", "+0041 is no code point"),
        ("0041.0042 ; X", "0041.0042 is no code point"),
        ("; X", " is no code point"),
        ("0041..0042..0043 ; X", "0042..0043 is no code point"),
        ("0000041 ; X", "0000041 is no code point"),
        ("100000000041 ; X", "100000000041 is no code point"),
        ("0041 ; X\n0041 ; X", "X: U+0041 is not above U+0041"),
        ("0041..0043 ; X\n0043..0044 ; X", "X: U+0043 is not above U+0043"),
        ("0041 ; X\n0030 ; X", "X: U+0030 is not above U+0041"),
        ("\x1B[2J\r\x07", "\u{FFFD}[2J\u{FFFD}"),
        (&long, "xxx..\n"),
        ("# EOF\n# more", "stands after `# EOF`"),
        ("# EOF\n0041 ; X", "stands after `# EOF`"),
    ];
    for name in FILES {
        let room = Room::new(&format!("malformed-{name}"));
        let text = room.text(name);
        for (line, message) in lines {
            room.put(name, with_lines(&text, line));
            room.fails(&format!("{name}: line "));
            room.fails(message);
        }
        let others =
            "0041 ; Something ; More # a line for another property\n0030 ; Something\n# Total";
        room.put(name, with_lines(&text, others));
        room.makes_reference();
    }
}

#[test]
fn sets_that_do_not_fit() {
    let cases = [
        ("PropList.txt", 0, 0x41, "U+0041 is in an identifier class and Pattern_Syntax"),
        ("PropList.txt", 1, 0x30, "U+0030 is in an identifier class and Pattern_White_Space"),
        ("PropList.txt", 0, 0x20, "U+0020 is in Pattern_Syntax and Pattern_White_Space"),
        ("DerivedCoreProperties.txt", 0, 0, "U+0000 is in XID_Start, not in XID_Continue"),
        ("DerivedCoreProperties.txt", 1, 0x378, "U+0378 is in an identifier class, not assigned"),
    ];
    let room = Room::new("sets");
    for (name, property, point, message) in cases {
        let text = room.text(name);
        let mut all = properties(&text);
        all[property].1.push((point, point));
        all[property].1.sort_unstable();
        room.put(name, short(&all));
        room.fails(message);
        room.put(name, &text);
    }
}
