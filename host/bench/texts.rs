//! Texts of 1 MiB to time readers on. They are the same in every run and hold
//! only identifiers, Pattern_Syntax signs and white space of Unicode 16.0.

use luffinarc::{Class, Range, Role, MAX_ENTRIES, MAX_TEXT};
use luffinarc_reader::cases::Rng;

/// The length of every text, the longest that is read.
pub const LENGTH: usize = MAX_TEXT;

/// The medials of dotted names: the hyphen and the full stop.
pub const MEDIALS: [(u32, Role); 2] = [(0x2D, Role::Medial), (0x2E, Role::Medial)];

/// As many entries as a profile may have: ideographs all over their block, as Start, which they are by their class too.
pub static LETTERS: [(u32, Role); MAX_ENTRIES] = letters(Role::Start, 41);

/// Ideographs that the profile makes Nonstart: four in each of 128 blocks of 64 code points, and one or two in each of 328.
pub static DENSE: [(u32, Role); MAX_ENTRIES] = letters(Role::Nonstart, 16);
pub static SPREAD: [(u32, Role); MAX_ENTRIES] = letters(Role::Nonstart, 41);

const fn letters(role: Role, step: u32) -> [(u32, Role); MAX_ENTRIES] {
    let mut letters = [(0x4E00, role); MAX_ENTRIES];
    let mut i = 0;
    while i < MAX_ENTRIES {
        letters[i].0 += step * i as u32;
        i += 1;
    }
    letters
}

pub(crate) const KEYS: [&str; 24] = [
    "panel",
    "valve",
    "pump_2",
    "inlet",
    "outlet",
    "pressure",
    "limit_high",
    "limit_low",
    "alarm",
    "delay_ms",
    "mode",
    "operator",
    "shift",
    "zone4",
    "sensor",
    "rate",
    "level",
    "tank",
    "heater",
    "target",
    "step",
    "interval",
    "display",
    "language",
];
pub(crate) const POLISH: [&str; 24] = [
    "zawór",
    "ciśnienie",
    "wejście",
    "wyjście",
    "próg",
    "górny",
    "dolny",
    "alarm",
    "opóźnienie",
    "tryb",
    "łącznik",
    "żądanie",
    "źródło",
    "pętla",
    "część",
    "wartość",
    "grzałka",
    "krok",
    "wyświetlacz",
    "język",
    "ustawienie",
    "dźwięk",
    "światło",
    "Łódź",
];
pub(crate) const WORDS: [&str; 30] = [
    "panel",
    "étage",
    "Größe",
    "naïve",
    "źródło",
    "πίεση",
    "θερμοκρασία",
    "όριο",
    "клапан",
    "давление",
    "режим",
    "تحكم",
    "ضغط",
    "שסתום",
    "לחץ",
    "दबाव",
    "सीमा",
    "ความดัน",
    "压力",
    "阀门",
    "温度",
    "圧力",
    "ポンプ",
    "バルブ",
    "압력",
    "밸브",
    "წნევა",
    "ճնշում",
    "ግፊት",
    "𞤣𞤮𞤼𞥅𞤢𞤤",
];
pub(crate) const SIGNS: [&str; 16] =
    ["=", ";", ",", ".", "(", ")", "{", "}", "+", "«", "»", "→", "≤", "。", "、", "×"];

/// Lines until the text is full; the rest is spaces.
pub(crate) fn filled(mut line: impl FnMut() -> String) -> String {
    let mut text = String::with_capacity(LENGTH);
    loop {
        let next = line();
        if text.len() + next.len() > LENGTH {
            break;
        }
        text.push_str(&next);
    }
    let rest = LENGTH - text.len();
    text + &" ".repeat(rest)
}

/// A settings script in ASCII.
pub fn ascii() -> String {
    let mut rng = Rng::new();
    filled(|| {
        let (a, b, c) = (*rng.pick(&KEYS), *rng.pick(&KEYS), *rng.pick(&KEYS));
        match rng.below(6) {
            0 => format!("[{a}.{b}]\n"),
            1 => format!("# {a} {b} {c}\n"),
            2 => format!("    {a} = {{ {b}, {c} }};\n"),
            3 => format!("if ({a}.{b} <= {c}) {{ {b} += {a}; }}\n"),
            _ => format!("    {a}_{b} = {c};\n"),
        }
    })
}

/// A settings script with Polish names.
pub fn polish() -> String {
    let mut rng = Rng::new();
    filled(|| {
        let (a, b, c) = (*rng.pick(&POLISH), *rng.pick(&POLISH), *rng.pick(&POLISH));
        match rng.below(4) {
            0 => format!("[{a}.{b}]\n"),
            1 => format!("# „{a}” {b} {c}\n"),
            _ => format!("    {a}_{b} = {c};\n"),
        }
    })
}

/// A word of Adlam letters, with marks and digits after the first.
pub(crate) fn adlam_word(rng: &mut Rng) -> String {
    let letter = |rng: &mut Rng| char::from_u32(0x1E900 + rng.below(68) as u32).unwrap();
    let mut word = String::from(letter(rng));
    for _ in 0..2 + rng.below(7) {
        word.push(match rng.below(8) {
            0 => char::from_u32(0x1E944 + rng.below(7) as u32).unwrap(),
            1 => char::from_u32(0x1E950 + rng.below(10) as u32).unwrap(),
            _ => letter(rng),
        });
    }
    word
}

/// A settings script in Adlam: four bytes a letter.
pub fn adlam() -> String {
    let mut rng = Rng::new();
    filled(|| {
        let (a, b, c) = (adlam_word(&mut rng), adlam_word(&mut rng), adlam_word(&mut rng));
        format!("{a} {b} = {c};\n")
    })
}

/// Words of many scripts, with signs and white space between.
pub fn mixed() -> String {
    let mut rng = Rng::new();
    let blanks = [" ", " ", " ", "  ", "\t", "\n", "\r\n", "\u{200E} ", "\u{2028}"];
    filled(|| {
        let word = rng.pick(&WORDS).to_string();
        let tail = ["", "", "_2", "9"][rng.below(4)];
        let sign = if rng.below(3) == 0 { *rng.pick(&SIGNS) } else { "" };
        word + tail + sign + *rng.pick(&blanks)
    })
}

/// Names of one to three parts, joined by medials, with blanks and line ends
/// between.
pub fn dotted() -> String {
    let mut rng = Rng::new();
    filled(|| {
        let mut name = rng.pick(&KEYS).to_string();
        for _ in 0..rng.below(3) {
            let (medial, part) = (*rng.pick(&["-", "."]), *rng.pick(&KEYS));
            name = name + medial + part;
        }
        name + *rng.pick(&[" ", " ", "  ", "\n"])
    })
}

/// Short lines as scripts have them: a name and a value, or less, with LF and
/// some CR LF.
pub fn short_lines() -> String {
    let mut rng = Rng::new();
    filled(|| {
        let (name, value) = (*rng.pick(&KEYS), *rng.pick(&KEYS));
        let end = *rng.pick(&["\n", "\n", "\n", "\r\n"]);
        match rng.below(8) {
            0 => format!("[{name}]{end}"),
            1 => format!("{name}{end}"),
            2 => format!("  {name} = {value}{end}"),
            _ => format!("{name} = {value}{end}"),
        }
    })
}

/// A settings script with names of a first letter, if there is one, and three to eight others.
fn names(first: &str, mut letter: impl FnMut(&mut Rng) -> char) -> String {
    let mut rng = Rng::new();
    let mut name = |rng: &mut Rng| -> String {
        let letters = 3 + rng.below(6);
        first.chars().chain((0..letters).map(|_| letter(rng))).collect()
    };
    filled(|| {
        let (a, b, c) = (name(&mut rng), name(&mut rng), name(&mut rng));
        format!("{a} = {b}, {c};\n")
    })
}

/// Names of which each letter is an entry of the large profile.
pub fn of_entries() -> String {
    names("", |rng| char::from_u32(rng.pick(&LETTERS).0).unwrap())
}

/// Names of which each letter but the first is an entry that the profile makes Nonstart.
pub fn of_nonstart(entries: &[(u32, Role)]) -> String {
    names("あ", |rng| char::from_u32(rng.pick(entries).0).unwrap())
}

/// The ranges of the class Start.
fn start_ranges(ranges: &[Range]) -> Vec<Range> {
    ranges.iter().filter(|range| range.class == Class::Start).copied().collect()
}

/// Names of letters drawn at random: all letters of all scripts alike, two in three of them ideographs.
pub fn letters_alike(ranges: &[Range]) -> String {
    let all: Vec<u32> =
        start_ranges(ranges).iter().flat_map(|range| range.first..=range.last).collect();
    names("", |rng| char::from_u32(*rng.pick(&all)).unwrap())
}

/// Names of letters drawn at random: first a range of letters, all alike, then a letter of it. Small scripts come as often as large
/// ones, and the text has letters of three in four of the blocks that have some.
pub fn ranges_alike(ranges: &[Range]) -> String {
    let starts = start_ranges(ranges);
    names("", |rng| {
        let range = *rng.pick(&starts);
        let of = (range.last - range.first + 1) as usize;
        char::from_u32(range.first + rng.below(of) as u32).unwrap()
    })
}

/// Texts of a line or two, of about 20, 30 and 40 bytes.
pub const SHORT: [&str; 3] = [
    "panel = valve;\nmode",
    "    pump_2 = { inlet, out };",
    "zawór_górny = ciśnienie;\n# tryb dźwięk",
];

/// A text, what it is called, and the profile under which it is read.
pub struct Sample {
    pub name: &'static str,
    pub text: String,
    pub profile: &'static [(u32, Role)],
}

/// All texts; the letters are those of the ranges.
pub fn all(ranges: &[Range]) -> [Sample; 8] {
    let sample = |name, text, profile| Sample { name, text, profile };
    [
        sample("ASCII", ascii(), &[]),
        sample("Polish", polish(), &[]),
        sample("Adlam", adlam(), &[]),
        sample("mixed scripts", mixed(), &[]),
        sample("dotted names", dotted(), &MEDIALS),
        sample("short lines", short_lines(), &[]),
        sample("random letters", letters_alike(ranges), &[]),
        sample("random ranges", ranges_alike(ranges), &[]),
    ]
}

/// Texts full of entries, each with a profile that changes none of its tokens.
pub fn profiled() -> [Sample; 5] {
    let sample = |name, text, profile| Sample { name, text, profile };
    [
        sample("each letter an entry, of its own class", of_entries(), &LETTERS),
        sample("each an entry made Nonstart, in 128 blocks", of_nonstart(&DENSE), &DENSE),
        sample("each an entry made Nonstart, in 328 blocks", of_nonstart(&SPREAD), &SPREAD),
        sample("mixed scripts", mixed(), &LETTERS),
        sample("ASCII", ascii(), &LETTERS),
    ]
}
