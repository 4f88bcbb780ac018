//! `UnicodeData.txt`: its lines, and that it is held to `DerivedCoreProperties.txt`.

use crate::room::{properties, short, Room, Span};

const DATA: &str = "UnicodeData.txt";
const CORE: &str = "DerivedCoreProperties.txt";

/// Code points and their General_Category.
type Piece = (Span, &'static str);

/// Every piece with a category that has the same code points in each version.
const FIXED: [Piece; 8] = [
    ((0x0000, 0x001F), "Cc"),
    ((0x007F, 0x009F), "Cc"),
    ((0x2028, 0x2028), "Zl"),
    ((0x2029, 0x2029), "Zp"),
    ((0xD800, 0xDFFF), "Cs"),
    ((0xE000, 0xF8FF), "Co"),
    ((0xF0000, 0xFFFFD), "Co"),
    ((0x100000, 0x10FFFD), "Co"),
];

/// Some pieces that are no letters.
const OTHERS: [Piece; 6] = [
    ((0x00AD, 0x00AD), "Cf"),
    ((0x0300, 0x036F), "Mn"),
    ((0x0483, 0x0489), "Mn"),
    ((0x0600, 0x0605), "Cf"),
    ((0x200C, 0x200D), "Cf"),
    ((0xE0001, 0xE0001), "Cf"),
];

/// The assigned code points of the room, those of no other category as letters.
fn pieces(room: &Room) -> Vec<Piece> {
    let assigned = properties(&room.text("Assigned.txt")).remove(0).1;
    let letters = assigned.into_iter().map(|span| (span, "Lo"));
    let mut categories = vec![""; 0x110000];
    for ((first, last), category) in letters.chain(FIXED).chain(OTHERS) {
        categories[first as usize..=last as usize].fill(category);
    }
    let mut pieces: Vec<Piece> = Vec::new();
    for (point, category) in (0..).zip(categories) {
        match pieces.last_mut() {
            Some(((_, last), before)) if *last + 1 == point && *before == category => *last = point,
            _ if category.is_empty() => {}
            _ => pieces.push(((point, point), category)),
        }
    }
    pieces
}

fn line(point: u32, name: &str, category: &str) -> String {
    format!("{point:04X};{name};{category};0;L;;;;;N;;;;;\n")
}

/// `UnicodeData.txt` with these pieces.
fn data(pieces: &[Piece]) -> String {
    let lines = |&((first, last), category): &Piece| match last - first {
        0 => line(first, "ONE", category),
        1 => line(first, "ONE", category) + &line(last, "TWO", category),
        _ => line(first, "<Block, First>", category) + &line(last, "<Block, Last>", category),
    };
    pieces.iter().map(lines).collect()
}

/// `DerivedCoreProperties.txt` of the room, and in it these pieces but for those of one property.
fn core(room: &Room, pieces: &[Piece], without: &str) -> String {
    let mut all = properties(&room.text(CORE));
    all.truncate(2);
    let held_to = [
        ("Grapheme_Base", &["Lo"][..]),
        ("Grapheme_Extend", &["Mn"]),
        ("Case_Ignorable", &["Cf", "Mn"]),
    ];
    for (name, categories) in held_to.into_iter().filter(|(name, _)| *name != without) {
        let of_name = pieces.iter().filter(|(_, category)| categories.contains(category));
        all.push((name.to_string(), of_name.map(|&(span, _)| span).collect()));
    }
    short(&all)
}

/// A room with both files.
fn room(name: &str) -> (Room, Vec<Piece>) {
    let room = Room::new(name);
    let pieces = pieces(&room);
    room.put(CORE, core(&room, &pieces, ""));
    room.put(DATA, data(&pieces));
    room.remove("Assigned.txt");
    (room, pieces)
}

#[test]
fn lines() {
    let (room, _) = room("data");
    room.makes_reference();
    let text = room.text(DATA);
    let lo = |point, name| line(point, name, "Lo");
    let cases = [
        (lo(0x10FFFE, "<Block, First>"), "ends too early"),
        (lo(0x10FFFE, "<Block, Last>"), "<Block, Last> without a First"),
        (lo(0x10FFFE, "<A, First>") + &lo(0x10FFFF, "B"), "not <A, Last>"),
        (lo(0x10FFFE, "<A, First>") + &lo(0x10FFFF, "<B, Last>"), "not <A, Last>"),
        (lo(0x41, "A"), "U+0041 is not above U+10FFFD"),
        (lo(0x110000, "A"), "U+110000 is above U+10FFFF"),
        (lo(0x10FFFE, "A"), "ends too early"),
        ("10FFFE;A;Lo\n".to_string(), "not of 15 fields"),
        (line(0x10FFFE, "A", "La"), "La is no General_Category"),
        (line(0x10FFFE, "A", "Cn"), "Cn is the General_Category of no line"),
        ("\n".to_string(), "not of 15 fields"),
    ];
    for (lines, message) in cases {
        room.put(DATA, text.clone() + &lines);
        room.fails(message);
    }
    // Cut after a line, and inside one.
    let ends: Vec<usize> = text.match_indices('\n').map(|(end, _)| end + 1).collect();
    for &end in ends.iter().rev().skip(1).take(20).chain(ends.iter().step_by(97)) {
        room.put(DATA, &text[..end]);
        room.fails("ends too early");
        room.put(DATA, &text[..end - 1]);
        room.fails("ends too early");
    }
}

/// Why a code point of this category must have a line.
fn told(category: &str) -> String {
    match category {
        "Lo" | "Mn" => "is in Grapheme_Base or Grapheme_Extend".to_string(),
        "Cf" => "is in Case_Ignorable".to_string(),
        fixed => format!("is {fixed} in every version"),
    }
}

/// Code points that lost their line: the first of a piece, its last, or all.
#[test]
fn lost_lines() {
    let (room, pieces) = room("lost-data");
    let sampled = |i: usize| pieces[i].1 != "Lo" || i % 97 == 0;
    for i in (0..pieces.len() - 1).filter(|&i| sampled(i)) {
        let ((first, last), category) = pieces[i];
        let lost = |point: u32, rest: &[Piece]| {
            room.put(DATA, data(&[&pieces[..i], rest, &pieces[i + 1..]].concat()));
            room.fails(&format!("{DATA}: U+{point:04X} has no line, but {}\n", told(category)));
        };
        lost(first, &[]);
        if first < last {
            lost(first, &[((first + 1, last), category)]);
            lost(last, &[((first, last - 1), category)]);
        }
    }
    let last = pieces.len() - 1;
    room.put(DATA, data(&[&pieces[..last], &[((0x100001, 0x10FFFD), "Co")]].concat()));
    room.fails("UnicodeData.txt: U+100000 has no line, but is Co in every version\n");
}

/// Code points of another category, or that are not assigned.
#[test]
fn other_categories() {
    let (room, pieces) = room("categories");
    let cases = [
        (0x0000, "Lo", "is Lo here, but Cc in every version"),
        (0xE000, "Cs", "is Cs here, but Co in every version"),
        (0x2028, "Cf", "is Cf here, but Zl in every version"),
        (0x00A0, "Co", "is Co here, but in no version"),
        (0x00A0, "Zp", "is Zp here, but in no version"),
        (0x00A0, "Cf", "is Cf, but not in Case_Ignorable"),
        (0x00AD, "Lo", "is not in Grapheme_Base or Grapheme_Extend"),
    ];
    for (first, category, why) in cases {
        let mut changed = pieces.clone();
        changed.iter_mut().find(|(span, _)| span.0 == first).unwrap().1 = category;
        room.put(DATA, data(&changed));
        room.fails(&format!("{DATA}: U+{first:04X} {why}\n"));
    }
    for category in ["Lo", "Mn", "Nd", "Cf", "Cc"] {
        let mut more = pieces.clone();
        more.push(((0x378, 0x378), category));
        more.sort_unstable();
        room.put(DATA, data(&more));
        room.fails(&format!("{DATA}: U+0378 is "));
    }
}

/// Without what it is held to, `UnicodeData.txt` is refused; only the file that is wrong is named.
#[test]
fn held_to() {
    let (room, pieces) = room("held");
    let file = |name| format!("luffinarc: {}", room.folder.join(name).display());
    for name in ["Grapheme_Base", "Grapheme_Extend", "Case_Ignorable"] {
        room.put(CORE, core(&room, &pieces, name));
        let why = format!("can't be held to Unicode 16.0.0: {CORE} has no {name}\n");
        room.fails(&format!("{}: {why}", file(DATA)));
    }
    let text = core(&room, &pieces, "Case_Ignorable");
    room.put(CORE, text.replace("# EOF", "00AD ; Case_Ignorable\n# EOF"));
    let why = "no `# Total code points:` after the lines of Case_Ignorable\n";
    room.fails(&format!("{}: {why}", file(CORE)));
}

/// The properties of another version have a code point more, or one fewer.
#[test]
fn of_another_version() {
    let (room, pieces) = room("another-version");
    for (first, why) in [
        (0x00A0, "is not in Grapheme_Base or Grapheme_Extend"),
        (0x0300, "is not in Grapheme_Base or Grapheme_Extend"),
        (0x200C, "is Cf, but not in Case_Ignorable"),
        (0x1F300, "is not in Grapheme_Base or Grapheme_Extend"),
    ] {
        let mut fewer = pieces.clone();
        fewer.retain(|(span, _)| !(span.0..=span.1).contains(&first));
        assert_eq!(fewer.len(), pieces.len() - 1);
        room.put(CORE, core(&room, &fewer, ""));
        room.fails(why);
    }
    for (point, category) in [(0x0378, "Lo"), (0x0379, "Mn"), (0xE0002, "Cf")] {
        let mut more = pieces.clone();
        more.push(((point, point), category));
        more.sort_unstable();
        room.put(CORE, core(&room, &more, ""));
        room.fails(&format!("{DATA}: U+{point:04X} has no line, but {}\n", told(category)));
    }
}
