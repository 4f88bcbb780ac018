//! Names and numbers are the same in the C header, the Rust crate, the reader and Rattle; so are the texts of refusals and
//! the version of the library in C and Rust.

use luffinarc::{Class, Kind, Refusal, Role, HASHTAG_KIND};
use luffinarc_reader::{changes, class, image, kind, record, role, token};
use std::fmt::Debug;

const HEADER: &str = include_str!("../../include/luffinarc.h");
const RATTLE: &str = include_str!("../../../crates/refusal/src/lib.rt");
const MANIFEST: &str = include_str!("../../luffinarc/Cargo.toml");

/// The number of a name in the C header, as `#define NAME NUMBER` or `NAME = NUMBER`.
fn in_c(name: &str) -> u32 {
    let words: Vec<&str> = HEADER.split_whitespace().filter(|&word| word != "=").collect();
    let number = |two: &[&str]| two[1].trim_end_matches(',').parse().ok();
    let found = words.windows(2).filter(|two| two[0] == name).find_map(number);
    found.unwrap_or_else(|| panic!("no {name} in C"))
}

/// The name of a variant, as it is shown, without what it carries.
fn name(variant: impl Debug) -> String {
    let shown = format!("{variant:?}");
    shown.split(|c: char| !c.is_alphanumeric()).next().unwrap().to_string()
}

/// The name of a variant in C: `IllFormed` is ILL_FORMED.
fn c_name(variant: impl Debug) -> String {
    let rises =
        |c: char| if c.is_uppercase() { vec!['_', c] } else { vec![c.to_ascii_uppercase()] };
    name(variant).chars().flat_map(rises).skip(1).collect()
}

/// The method of Rattle has an arm with the variant, and the arm gives the value.
fn in_rattle(method: &str, variant: &str, value: &str) {
    let start = RATTLE.find(&format!("pub fn {method}(")).expect("it is there");
    let body = RATTLE[start..].split("\n    }\n").next().unwrap();
    let words: Vec<&str> = body.split_whitespace().collect();
    let text = words.join(" ");
    let after = text.split_once(&format!("{variant} ")).map(|(_, after)| after);
    let given = after.and_then(|after| after.split_once("=> ")).map(|(_, given)| given);
    let is_given = given.map_or(false, |given| given.starts_with(&format!("{value},")));
    assert!(is_given, "no {variant} with {value} in {method} of Rattle");
}

/// The number of a public constant of a Rattle crate, or of a module of one, as `image::records`.
fn constant(of: &str, name: &str) -> u32 {
    let (of_crate, module) = of.split_once("::").unwrap_or((of, "lib"));
    let file = format!("{}/../../crates/{of_crate}/src/{module}.rt", env!("CARGO_MANIFEST_DIR"));
    let source = std::fs::read_to_string(&file).unwrap_or_else(|error| panic!("{file}: {error}"));
    let number = |line: &str| {
        let rest = line.strip_prefix(&format!("pub const {name}: "))?;
        rest.split_once(" = ")?.1.strip_suffix(';')?.parse().ok()
    };
    source.lines().find_map(number).unwrap_or_else(|| panic!("no {name} in {of} of Rattle"))
}

/// What a function of the C header returns, by what stands after `case`, and after `default` at the end.
fn cases_in_c(function: &str) -> Vec<(&'static str, &'static str)> {
    let start = HEADER.find(&format!(" *{function}(")).expect("it is there");
    let body = HEADER[start..].split("\n}").next().unwrap();
    let case = |line: &'static str| {
        let (label, value) = line.trim().split_once(": return \"")?;
        Some((label.strip_prefix("case ").unwrap_or(label), value.strip_suffix("\";")?))
    };
    body.lines().filter_map(case).collect()
}

/// Every refusal; those that carry something carry 7, and 2.
fn all_refusals() -> [Refusal; 14] {
    [
        Refusal::Length,
        Refusal::Header,
        Refusal::Range { index: 7 },
        Refusal::Entry { index: 7 },
        Refusal::TextLength,
        Refusal::IllFormed { place: 7, len: 2 },
        Refusal::Characters { place: 7 },
        Refusal::Room { needed: 7 },
        Refusal::NotScalar { number: 7 },
        Refusal::Change { code_point: 7 },
        Refusal::Profiles,
        Refusal::Buffer { needed: 7 },
        Refusal::Shape,
        Refusal::Mark { place: 7 },
    ]
}

#[test]
fn refusals() {
    for (refusal, number) in all_refusals().into_iter().zip(1..) {
        assert_eq!((refusal.number(), refusal.name()), (number, name(refusal).as_str()));
        let of_reader = luffinarc_reader::Refusal::named(number, [7, 2]).unwrap();
        assert_eq!((name(of_reader), of_reader.number()), (name(refusal), number));
        assert!(refusal.carried().eq(of_reader.carried()));
        assert_eq!(in_c(&format!("LUFFINARC_{}", c_name(refusal))), number);
        let count = refusal.carried().count();
        let held = ["", "(_)", " { .. }"][count];
        in_rattle("number", &format!("Refusal::{}{held}", name(refusal)), &number.to_string());
        let held = ["", "(n)", " { place, len }"][count];
        let carried = ["[None, None]", "[Some(n), None]", "[Some(place), Some(len)]"][count];
        in_rattle("carried", &format!("Refusal::{}{held}", name(refusal)), carried);
    }
    assert_eq!(luffinarc_reader::Refusal::named(15, [7, 2]), None);
}

/// The names and the texts of results in C are those of Rust's refusals, and three more.
#[test]
fn names_and_texts_in_c() {
    let of_rust = |first, value: fn(&Refusal) -> &'static str, done, none| {
        let of_refusal =
            |refusal: &Refusal| (format!("LUFFINARC_{}", c_name(refusal)), value(refusal));
        let mut cases = vec![("0".to_string(), first)];
        cases.extend(all_refusals().iter().map(of_refusal));
        cases.extend([("LUFFINARC_DONE".to_string(), done), ("default".to_string(), none)]);
        cases
    };
    let of_c = |function| {
        let cases = cases_in_c(function).into_iter();
        cases.map(|(label, value)| (label.to_string(), value)).collect::<Vec<_>>()
    };
    let names = of_rust("none", Refusal::name, "Done", "unknown");
    assert_eq!(of_c("luffinarc_refusal_name"), names);
    let (first, done) = ("no refusal", "the place is the text's end");
    let texts = of_rust(first, Refusal::text, done, "no result has this number");
    assert_eq!(of_c("luffinarc_refusal_text"), texts);
}

/// A refusal is displayed as its text, with what it carries put in.
#[test]
fn texts_and_what_is_carried() {
    for refusal in all_refusals() {
        let (general, carried) = match refusal {
            Refusal::Range { .. } => ("a range", "range 7"),
            Refusal::Entry { .. } => ("a profile entry", "profile entry 7"),
            Refusal::IllFormed { .. } => ("UTF-8", "UTF-8 at byte 7, length 2"),
            Refusal::Characters { .. } => ("here", "at byte 7"),
            Refusal::Room { .. } => ("more room", "room for 7 records"),
            Refusal::NotScalar { .. } => ("the number", "7 hex"),
            Refusal::Change { .. } => ("a code point", "U+0007"),
            Refusal::Buffer { .. } => ("a larger buffer", "a buffer of 7 bytes"),
            Refusal::Mark { .. } => ("a direction mark", "the direction mark at byte 7"),
            _ => ("", ""),
        };
        assert_eq!(refusal.carried().count() > 0, !general.is_empty(), "{refusal:?}");
        assert!(refusal.text().contains(general), "{refusal:?}");
        assert_eq!(refusal.text().replacen(general, carried, 1), refusal.to_string());
    }
}

/// The version of the library in the header, and of its crates.
#[test]
fn version_of_the_library() {
    let of_crate = |line: &'static str| line.strip_prefix("version = \"")?.strip_suffix('"');
    let version = MANIFEST.lines().find_map(of_crate).expect("a crate has a version");
    assert_eq!(version, env!("CARGO_PKG_VERSION"));
    assert!(HEADER.contains(&format!("\n#define LUFFINARC_VERSION \"{version}\"\n")));
    let part = |name| in_c(&format!("LUFFINARC_VERSION_{name}")).to_string();
    assert_eq!(["MAJOR", "MINOR", "PATCH"].map(part).join("."), version);
}

/// The numbers of a variant in C, Rust and the reader.
fn same(group: &str, variant: impl Debug, number: u32, of_reader: u32) {
    let of_c = in_c(&format!("LUFFINARC_{group}_{}", c_name(variant)));
    assert_eq!((number, of_reader), (of_c, of_c));
}

#[test]
fn classes_and_roles() {
    let classes = [
        (Class::Unassigned, class::UNASSIGNED),
        (Class::Start, class::START),
        (Class::Nonstart, class::NONSTART),
        (Class::Syntax, class::SYNTAX),
        (Class::White, class::WHITE),
        (Class::Other, class::OTHER),
    ];
    for (class, of_reader) in classes {
        same("CLASS", class, class.number(), of_reader);
        assert_eq!(Class::from_number(class.number()), Some(class));
        assert_eq!((class.name(), class.to_string()), (name(class).as_str(), name(class)));
    }
    let roles = [
        (Role::Start, role::START),
        (Role::Nonstart, role::NONSTART),
        (Role::Medial, role::MEDIAL),
        (Role::Other, role::OTHER),
        (Role::Hashtag, role::HASHTAG),
    ];
    for (role, of_reader) in roles {
        same("ROLE", role, role.number(), of_reader);
        assert_eq!(Role::from_number(role.number()), Some(role));
        assert_eq!((role.name(), role.to_string()), (name(role).as_str(), name(role)));
    }
    assert_eq!((Class::from_number(6), Role::from_number(6)), (None, None));
    assert_eq!(Role::from_number(0), None);
}

#[test]
fn kinds() {
    let kinds = [
        (Kind::Identifier, kind::IDENTIFIER),
        (Kind::Syntax, kind::SYNTAX),
        (Kind::Blank, kind::BLANK),
        (Kind::LineEnd, kind::LINE_END),
        (Kind::Mark, kind::MARK),
    ];
    for (kind, of_reader) in kinds {
        same("KIND", kind, kind.number(), of_reader);
        assert_eq!(Kind::from_number(kind.number()), Some(kind));
        assert_eq!((kind.name(), kind.to_string()), (name(kind).as_str(), name(kind)));
    }
    assert_eq!((Kind::from_number(0), Kind::from_number(6)), (None, None));
}

/// The role and the kind of hashtags, in Rattle too. The kind is that of no token.
#[test]
fn hashtags() {
    assert_eq!(constant("image::records", "HASHTAG_ROLE"), Role::Hashtag.number());
    assert_eq!(constant("hashtag", "HASHTAG_KIND"), HASHTAG_KIND);
    assert_eq!((in_c("LUFFINARC_KIND_HASHTAG"), kind::HASHTAG), (HASHTAG_KIND, HASHTAG_KIND));
    assert_eq!(Kind::from_number(HASHTAG_KIND), None);
    assert_eq!(constant("grammar", "RECORD_WORDS") as usize, luffinarc::RECORD_WORDS);
}

#[test]
fn limits() {
    let limits = [
        ("MAX_RANGES", luffinarc::MAX_RANGES, image::MAX_RANGES),
        ("MAX_ENTRIES", luffinarc::MAX_ENTRIES, image::MAX_ENTRIES),
        ("MAX_IMAGE", luffinarc::MAX_IMAGE, image::MAX_IMAGE),
        ("MAX_TEXT", luffinarc::MAX_TEXT, token::MAX_TEXT),
        ("RANGE_WORDS", luffinarc::RANGE_WORDS, image::RANGE_WORDS),
        ("RECORD_WORDS", luffinarc::RECORD_WORDS, record::RECORD_WORDS),
        ("MAX_RUNS", luffinarc::MAX_RUNS, changes::MAX_RUNS),
        ("MAX_CHANGED_ENTRIES", luffinarc::MAX_CHANGED_ENTRIES, changes::MAX_CHANGED_ENTRIES),
        ("RUN_WORDS", luffinarc::RUN_WORDS, changes::RUN_WORDS),
        ("CHANGED_ENTRY_WORDS", luffinarc::CHANGED_ENTRY_WORDS, changes::CHANGED_ENTRY_WORDS),
    ];
    for (name, of_rust, of_reader) in limits {
        let of_c = in_c(&format!("LUFFINARC_{name}")) as usize;
        assert_eq!((of_rust, of_reader), (of_c, of_c), "{name}");
    }
    assert_eq!(constant("image", "MAX_RANGES") as usize, luffinarc::MAX_RANGES);
    assert_eq!(constant("image", "MAX_ENTRIES") as usize, luffinarc::MAX_ENTRIES);
    assert_eq!((luffinarc::MAX_ENTRIES, luffinarc::MAX_IMAGE), (512, 53_280));
    assert!(HEADER.contains("\n#define LUFFINARC_TOKEN_WORDS LUFFINARC_RECORD_WORDS\n"));
    assert_eq!(in_c("LUFFINARC_DONE"), luffinarc::calls::DONE);
    assert_eq!(in_c("LUFFINARC_ANSWER") as usize, luffinarc::calls::Answer::default().len());
}
