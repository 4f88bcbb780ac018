//! Runs `luffinarc changes`: its lines, its JSON, its page, its exit status.

mod common;
#[path = "changes/html.rs"]
mod html;
#[path = "changes/json.rs"]
mod json;

use common::{room, run_command, DATA};
use html::Tag;
use json::Json;
use luffinarc::{
    check_pair, list_changes, write_image, Changes, Class, PairRefusal, Profile, Range, Role, Run,
    Version, MAX_CHANGED_ENTRIES, MAX_RUNS,
};
use luffinarc_reader::cases::{image_of, small_image, Rng};
use std::ffi::OsStr;
use std::fs;
use std::path::{Path, PathBuf};
use std::process::{Command, Stdio};

/// The command in a folder, with what it is given after `changes`.
fn command(room: &Path, args: &[impl AsRef<OsStr>]) -> Command {
    let mut command = common::command();
    command.current_dir(room).arg("changes").args(args);
    command
}

/// Runs the command: its status, standard output and standard error.
fn run(room: &Path, args: &[impl AsRef<OsStr>]) -> (i32, String, String) {
    let run = run_command(&mut command(room, args), b"");
    (run.status, run.out, run.err)
}

/// The same with this standard input.
fn run_on(room: &Path, args: &[&str], input: &[u8]) -> (i32, String, String) {
    let run = run_command(&mut command(room, args), input);
    (run.status, run.out, run.err)
}

/// A folder with copies of images under short names.
fn with_images(name: &str, images: &[&str]) -> PathBuf {
    let room = room(name);
    for image in images {
        fs::copy(format!("{DATA}/images/{image}"), room.join(image)).unwrap();
    }
    room
}

fn made(version: Version, ranges: &[(u32, u32, Class)], entries: &[(u32, Role)]) -> Vec<u8> {
    let range = |&(first, last, class): &(u32, u32, Class)| Range { first, last, class };
    let ranges: Vec<Range> = ranges.iter().map(range).collect();
    write_image(version, &ranges, &Profile::new(entries)).unwrap()
}

/// The page of two files.
fn page_of(room: &Path, older: &str, newer: &str) -> String {
    let (_, stdout, stderr) = run(room, &["--html", "page.html", older, newer]);
    assert_eq!(stderr, "");
    assert!(stdout.ends_with("\npage: page.html\n"), "{stdout}");
    fs::read_to_string(room.join("page.html")).unwrap()
}

/// The changes that are permitted, by the numbers of the classes (docs/RULES.md, "Permitted changes").
const PERMITTED: [(u32, u32); 6] = [(0, 1), (0, 2), (0, 5), (2, 1), (5, 1), (5, 2)];

const YES: &str = "yes: the newer may follow the older: every text that the older accepts has the \
                   same tokens under the newer\n";

#[test]
fn small_images() {
    let room = with_images("small", &["m.img", "m2.img"]);
    let (status, stdout, stderr) = run(&room, &["m.img", "m2.img"]);
    let expected = "\
older: m.img: Unicode 16.0.0, 5 ranges, a profile of 1 entry
newer: m2.img: Unicode 16.0.0, 6 ranges, a profile of 1 entry

1 run of code points with another class
first   last    code points  older class  newer class  characters
U+00E9  U+00E9            1  Unassigned   Start        é

summary
older class  newer class  runs  code points  pair check
Unassigned   Start           1            1  permitted

";
    assert_eq!((status, stdout, stderr.as_str()), (0, format!("{expected}{YES}"), ""));

    let (status, stdout, stderr) = run(&room, &["m2.img", "m.img"]);
    let expected = "
1 run of code points with another class
first   last    code points  older class  newer class  characters
U+00E9  U+00E9            1  Start        Unassigned   é

summary
older class  newer class  runs  code points  pair check
Start        Unassigned      1            1  forbidden

no: the newer may not follow the older: refusal 10, a code point has a class that it may not change to: U+00E9 é from Start to Unassigned
";
    assert_eq!((status, stderr.as_str()), (1, ""));
    assert!(stdout.ends_with(expected), "{stdout}");
}

#[test]
fn same_image_twice() {
    let room = with_images("same", &["m.img", "unicode-16.0.img"]);
    let (status, stdout, stderr) = run(&room, &["m.img", "m.img"]);
    let expected = "\
older: m.img: Unicode 16.0.0, 5 ranges, a profile of 1 entry
newer: m.img: Unicode 16.0.0, 5 ranges, a profile of 1 entry

nothing changed: classes and profiles are the same

";
    assert_eq!((status, stdout, stderr.as_str()), (0, format!("{expected}{YES}"), ""));
    let page = page_of(&room, "unicode-16.0.img", "unicode-16.0.img");
    let tags = html::read(&page);
    assert!(page.contains("<p>Nothing changed: classes and profiles are the same.</p>"));
    assert!(page.contains("there: planes 4 to 13.</p>"));
    assert_eq!(tags.iter().filter(|tag| tag.name == "figure").count(), 7);
    assert_eq!(tags.iter().filter(|tag| tag.name == "tr").count(), 0);
    let (_, stdout, _) = run(&room, &["--json", "m.img", "m.img"]);
    let json = json::read(&stdout);
    assert!(["runs", "entries", "summary"].iter().all(|name| json.get(name).list().is_empty()));
    assert_eq!((json.get("may_follow"), json.get("refusal")), (&Json::Bool(true), &Json::Null));
}

#[test]
fn small_json() {
    let room = with_images("small-json", &["m.img", "m2.img"]);
    let (status, stdout, _) = run(&room, &["--json", "m2.img", "m.img"]);
    let expected = r#"{"older":{"file":"m2.img","version":"16.0.0","ranges":6,"entries":1},
"newer":{"file":"m.img","version":"16.0.0","ranges":5,"entries":1},
"runs":[
{"first":233,"last":233,"first_hex":"U+00E9","last_hex":"U+00E9","code_points":1,"older":"Start","newer":"Unassigned","permitted":false}
],
"entries":[],
"summary":[
{"older":"Start","newer":"Unassigned","runs":1,"code_points":1,"permitted":false}
],
"may_follow":false,
"refusal":{"number":10,"name":"Change","meaning":"a code point has a class that it may not change to","carried":[233]}}
"#;
    assert_eq!((status, stdout.as_str()), (1, expected));
    json::read(&stdout);
}

const PROFILES: &str = "\
older: older: Unicode 1.0.0, 1 range, a profile of 3 entries
newer: newer: Unicode 2.1.3, 2 ranges, a profile of 4 entries

3 runs of code points with another class
first   last    code points  older class  newer class  characters
U+0020  U+0020            1  White        Unassigned
U+0061  U+007A           26  Unassigned   Start        a … z
U+0300  U+0302            3  Unassigned   Nonstart     \u{25CC}\u{300} \u{25CC}\u{301} \u{25CC}\u{302}

4 profile entries with another role
code point  character  older role  newer role
U+002D      -          Medial      -
U+0301      \u{25CC}\u{301}          Start       Nonstart
U+200D                 -           Medial
U+5B58      存         -           Hashtag

summary
older class  newer class  runs  code points  pair check
Unassigned   Start           1           26  permitted
Unassigned   Nonstart        1            3  permitted
White        Unassigned      1            1  forbidden
all                          3           30

no: the newer may not follow the older: refusal 11, the images have unequal profiles
";

/// Wide characters, marks and long runs; entries that came, went and changed.
#[test]
fn profiles() {
    let room = room("profiles");
    let letters = [(0x61, 0x7A, Class::Start), (0x300, 0x302, Class::Nonstart)];
    let entries = [(0x2D, Role::Medial), (0x301, Role::Start), (0x5B57, Role::Other)];
    let older = made(Version::new(1, 0, 0), &[(0x20, 0x20, Class::White)], &entries);
    let entries = [
        (0x301, Role::Nonstart),
        (0x200D, Role::Medial),
        (0x5B57, Role::Other),
        (0x5B58, Role::Hashtag),
    ];
    let newer = made(Version::new(2, 1, 3), &letters, &entries);
    fs::write(room.join("older"), older).unwrap();
    fs::write(room.join("newer"), newer).unwrap();
    let (status, stdout, _) = run(&room, &["older", "newer"]);
    assert_eq!((status, stdout.as_str()), (1, PROFILES));
    let (_, stdout, _) = run(&room, &["--json", "older", "newer"]);
    let json = json::read(&stdout);
    let roles = |entry: &Json| (entry.get("older").clone(), entry.get("newer").clone());
    let entries = json.get("entries").list();
    assert_eq!(roles(&entries[0]), (Json::Text("Medial".to_string()), Json::Null));
    assert_eq!(entries[3].get("hex").text(), "U+5B58");
    assert_eq!(json.get("refusal").get("number").number(), 11);
    assert_eq!(json.get("refusal").get("carried"), &Json::List(vec![]));
    check_page(&room, "older", "newer");
}

/// Every kind of change: permitted exactly where the pair check says so.
#[test]
fn kinds_of_change() {
    let room = room("kinds");
    let classes = [0, 1, 2, 3, 4, 5].map(|number| Class::from_number(number).unwrap());
    let image = |class: Class| match class {
        Class::Unassigned => made(Version::new(1, 0, 0), &[], &[]),
        class => made(Version::new(1, 0, 0), &[(0x2603, 0x2603, class)], &[]),
    };
    let mut permitted = Vec::new();
    for older in classes {
        for newer in classes.into_iter().filter(|&newer| newer != older) {
            fs::write(room.join("older"), image(older)).unwrap();
            fs::write(room.join("newer"), image(newer)).unwrap();
            let (status, stdout, _) = run(&room, &["older", "newer"]);
            let follows = check_pair(&image(older), &image(newer)).is_ok();
            let verdict = if follows { "permitted" } else { "forbidden" };
            let summary = format!("{older:<11}  {newer:<11}     1            1  {verdict}\n");
            assert!(stdout.contains(&summary), "{stdout}");
            assert_eq!(status, i32::from(!follows));
            if follows {
                permitted.push((older.number(), newer.number()));
            } else {
                let first = format!("change to: U+2603 ☃ from {older} to {newer}\n");
                assert!(stdout.ends_with(&first), "{stdout}");
            }
        }
    }
    assert_eq!(permitted, PERMITTED);
}

fn points(run: &Run) -> u64 {
    u64::from(run.last - run.first) + 1
}

/// The kinds of runs, rising, with runs and code points.
fn kinds(changes: &Changes) -> Vec<(Class, Class, u64, u64)> {
    let mut kinds: Vec<(Class, Class, u64, u64)> = Vec::new();
    for run in &changes.runs {
        match kinds.iter_mut().find(|kind| (kind.0, kind.1) == (run.older, run.newer)) {
            Some(kind) => {
                kind.2 += 1;
                kind.3 += points(run);
            }
            None => kinds.push((run.older, run.newer, 1, points(run))),
        }
    }
    kinds.sort_by_key(|kind| (kind.0.number(), kind.1.number()));
    kinds
}

fn read_both(room: &Path, older: &str, newer: &str) -> (Vec<u8>, Vec<u8>) {
    (fs::read(room.join(older)).unwrap(), fs::read(room.join(newer)).unwrap())
}

/// The object has what the library lists.
fn check_json(room: &Path, older: &str, newer: &str) {
    let (older_bytes, newer_bytes) = read_both(room, older, newer);
    let changes = list_changes(&older_bytes, &newer_bytes).unwrap();
    let (status, stdout, stderr) = run(room, &["--json", older, newer]);
    assert_eq!(stderr, "");
    let json = json::read(&stdout);
    let numbers = |item: &Json, names: [&str; 2]| names.map(|name| item.get(name).number());
    let names =
        |item: &Json| [item.get("older").text().to_string(), item.get("newer").text().to_string()];
    let runs = json.get("runs").list();
    assert_eq!(runs.len(), changes.runs.len());
    for (item, run) in runs.iter().zip(&changes.runs) {
        assert_eq!(numbers(item, ["first", "last"]), [run.first, run.last].map(u64::from));
        assert_eq!(item.get("first_hex").text(), format!("U+{:04X}", run.first));
        assert_eq!(item.get("last_hex").text(), format!("U+{:04X}", run.last));
        assert_eq!(item.get("code_points").number(), points(run));
        assert_eq!(names(item), [run.older, run.newer].map(|class| class.to_string()));
        let is_permitted = PERMITTED.contains(&(run.older.number(), run.newer.number()));
        assert_eq!(item.get("permitted"), &Json::Bool(is_permitted));
    }
    let entries = json.get("entries").list();
    assert_eq!(entries.len(), changes.entries.len());
    for (item, entry) in entries.iter().zip(&changes.entries) {
        assert_eq!(item.get("code_point").number(), u64::from(entry.code_point));
        let role = |role: Option<Role>| role.map_or(Json::Null, |r| Json::Text(r.to_string()));
        assert_eq!(
            (item.get("older"), item.get("newer")),
            (&role(entry.older), &role(entry.newer))
        );
    }
    let kind = |item: &Json| (names(item), numbers(item, ["runs", "code_points"]));
    let summary: Vec<_> = json.get("summary").list().iter().map(kind).collect();
    let expected = kinds(&changes);
    let expected = expected.iter().map(|k| ([k.0, k.1].map(|c| c.to_string()), [k.2, k.3]));
    assert_eq!(summary, expected.collect::<Vec<_>>());
    let refused = check_pair(&older_bytes, &newer_bytes).is_err();
    assert_eq!((json.get("may_follow"), status), (&Json::Bool(!refused), i32::from(refused)));
}

/// The squares of a path of the picture.
fn squares(path: &str) -> u64 {
    let square = |part: &str| {
        let (_, size) = part.split_once('h').unwrap();
        let (width, rest) = size.split_once('v').unwrap();
        let (height, _) = rest.split_once('h').unwrap();
        width.parse::<u64>().unwrap() * height.parse::<u64>().unwrap()
    };
    path.split('M').skip(1).map(square).sum()
}

/// The squares of the paths with a class.
fn squares_of(tags: &[Tag], class: &str) -> u64 {
    let paths = tags.iter().filter(|tag| tag.name == "path" && tag.has_class(class));
    paths.map(|tag| squares(tag.get("d"))).sum()
}

/// The picture has every changed code point in its kind, every changed cell framed, and each entry.
fn check_picture(tags: &[Tag], changes: &Changes, newer: &[u8]) {
    for (older, newer, _, code_points) in kinds(changes) {
        let class = format!("k{}{}", older.number(), newer.number());
        assert_eq!(squares_of(tags, &class), code_points, "{older} to {newer}");
    }
    let image = luffinarc::Image::check(newer).unwrap();
    let ranges = image.ranges();
    let assigned: u64 = ranges.iter().map(|range| u64::from(range.last - range.first) + 1).sum();
    assert_eq!(squares_of(tags, "assigned"), assigned);
    let mut cells: Vec<u32> =
        changes.runs.iter().flat_map(|r| r.first >> 8..=r.last >> 8).collect();
    cells.extend(changes.entries.iter().map(|entry| entry.code_point >> 8));
    cells.sort_unstable();
    cells.dedup();
    let frames = tags.iter().filter(|tag| tag.name == "rect" && tag.has_class("frame")).count();
    assert_eq!(frames, cells.len());
    let first = |cell: u32| format!("U+{:04X} to U+{:04X}\n", cell << 8, cell << 8 | 0xFF);
    let tips: Vec<&Tag> = tags.iter().filter(|tag| tag.name == "title").skip(1).collect();
    assert_eq!(tips.len(), cells.len());
    assert!(cells.iter().zip(&tips).all(|(&cell, tip)| tip.text.starts_with(&first(cell))));
    let rings = tags.iter().filter(|tag| tag.name == "circle").count();
    assert_eq!(rings, changes.entries.len());
}

/// The page is well-formed, needs nothing from outside, and has what the library lists. Gives its length.
fn check_page(room: &Path, older: &str, newer: &str) -> usize {
    let (older_bytes, newer_bytes) = read_both(room, older, newer);
    let changes = list_changes(&older_bytes, &newer_bytes).unwrap();
    let page = page_of(room, older, newer);
    let tags = html::read(&page);
    assert!(!page.contains("<script") && !page.contains("://") && !page.contains("@import"));
    let spans: Vec<String> = changes.runs.iter().map(|r| format!("u{:X}", r.first)).collect();
    let rows = |kind: char| {
        let ids = tags.iter().filter(|tag| tag.name == "tr").map(|tag| tag.get("id"));
        ids.filter(|id| id.starts_with(kind)).map(str::to_string).collect::<Vec<_>>()
    };
    assert_eq!(rows('u'), spans);
    let places = changes.entries.iter().map(|entry| format!("e{:X}", entry.code_point));
    assert_eq!(rows('e'), places.collect::<Vec<_>>());
    let no = tags.iter().any(|tag| tag.name == "p" && tag.get("class") == "verdict no");
    assert_eq!(no, check_pair(&older_bytes, &newer_bytes).is_err());
    check_picture(&tags, &changes, &newer_bytes);
    page.len()
}

#[test]
fn unicode_versions() {
    let all = ["14.0", "15.0", "16.0", "17.0"].map(|version| format!("unicode-{version}.img"));
    let room = with_images("versions", &all.iter().map(String::as_str).collect::<Vec<_>>());
    for older in &all {
        for newer in &all {
            check_json(&room, older, newer);
            check_page(&room, older, newer);
        }
    }
    let (status, stdout, _) = run(&room, &[&all[1], &all[2]]);
    let summary = "
summary
older class  newer class  runs  code points  pair check
Unassigned   Start          22        4,924  permitted
Unassigned   Nonstart       19          131  permitted
Unassigned   Other          24          754  permitted
Other        Nonstart        3            4  permitted
all                         68        5,813

";
    assert_eq!(status, 0);
    assert!(stdout.ends_with(&format!("{summary}{YES}")), "{stdout}");
    assert!(stdout.contains("\nU+30FB   U+30FB             1  Other        Nonstart     ・\n"));
    assert_eq!(stdout.lines().filter(|line| line.starts_with("U+")).count(), 68);
    let (status, stdout, stderr) = run(&room, &[&all[2], &all[1]]);
    assert_eq!((status, stderr.as_str()), (1, ""));
    let verdict = stdout.lines().last().unwrap();
    assert!(
        verdict
            .contains(": refusal 10, a code point has a class that it may not change to: U+0897"),
        "{verdict}"
    );
    assert!(verdict.ends_with(" from Nonstart to Unassigned"), "{verdict}");
}

/// The title, the two images and the kinds are on the page.
#[test]
fn page_in_words() {
    let room = with_images("words", &["unicode-15.0.img", "unicode-16.0.img"]);
    let page = page_of(&room, "unicode-15.0.img", "unicode-16.0.img");
    let tags = html::read(&page);
    let texts: Vec<&str> = tags.iter().map(|tag| tag.text.as_str()).collect();
    for text in [
        "Unicode 15.0.0 to 16.0.0: what changed",
        "Unicode 15.0.0 to 16.0.0",
        "unicode-15.0.img",
        "unicode-16.0.img",
        "Plane 0: Basic Multilingual Plane, U+0000 to U+FFFF",
        "68 runs of code points with another class",
        "U+105C0 to U+105F3",
        "4,924",
        "U+0800 to U+08FF\nU+0897: Unassigned → Nonstart",
    ] {
        assert!(texts.contains(&text), "{text}");
    }
    assert!(page.contains("<i></i>Unassigned → Start: 4,294</li>"));
    assert!(page.contains("neither image assigns a code point there: planes 4 to 13.</p>"));
}

/// The most runs and the most entries between two images.
#[test]
fn most_changes() {
    let room = room("most");
    let range = |i: u32, first, class| (4 * i + first, 4 * i + first + 2, class);
    let start: Vec<_> = (0..4096).map(|i| range(i, 0, Class::Start)).collect();
    let nonstart: Vec<_> = (0..4096).map(|i| range(i, 2, Class::Nonstart)).collect();
    let even: Vec<_> = (0..512).map(|i| (2 * i, Role::Medial)).collect();
    let odd: Vec<_> = (0..512).map(|i| (2 * i + 1, Role::Hashtag)).collect();
    fs::write(room.join("older"), made(Version::new(1, 0, 0), &start, &even)).unwrap();
    fs::write(room.join("newer"), made(Version::new(2, 0, 0), &nonstart, &odd)).unwrap();
    let (status, stdout, _) = run(&room, &["older", "newer"]);
    assert_eq!(status, 1);
    let rows = stdout.lines().filter(|line| line.starts_with("U+")).count();
    assert_eq!(rows, MAX_RUNS + MAX_CHANGED_ENTRIES);
    assert!(stdout.contains("\nall                       16,383       16,385\n"), "no total");
    check_json(&room, "older", "newer");
    let length = check_page(&room, "older", "newer");
    assert!(length < 4_000_000, "the page has {length} bytes");
}

/// The whole code space comes, and goes.
#[test]
fn all_planes() {
    let room = room("planes");
    let all = [(0, 0xD7FF, Class::Start), (0xE000, 0x10FFFF, Class::Other)];
    fs::write(room.join("none"), made(Version::new(0, 0, 0), &[], &[])).unwrap();
    fs::write(room.join("all"), made(Version::new(65535, 255, 255), &all, &[])).unwrap();
    for (older, newer) in [("none", "all"), ("all", "none"), ("none", "none")] {
        check_json(&room, older, newer);
        check_page(&room, older, newer);
    }
    let page = page_of(&room, "none", "none");
    assert!(page.contains("there: planes 0 to 16.</p>"));
}

/// Images with any code points, among them controls, marks and the neighbours of surrogates.
#[test]
fn made_images() {
    let (room, mut rng) = (room("made"), Rng::seeded(211));
    for _ in 0..40 {
        let [older, newer] = [(); 2].map(|()| image_of(&small_image(&mut rng)));
        fs::write(room.join("older"), older).unwrap();
        fs::write(room.join("newer"), newer).unwrap();
        check_json(&room, "older", "newer");
        check_page(&room, "older", "newer");
    }
}

/// Names with what JSON and HTML would read otherwise.
#[test]
fn file_names() {
    let room = room("names");
    let names = ["<b>&amp;\"'.img", "a\n\u{1}\u{7F}\u{85}\\\u{FFFE}.img"];
    let images = ["m.img", "m2.img"];
    for (name, image) in names.iter().zip(images) {
        fs::copy(format!("{DATA}/images/{image}"), room.join(name)).unwrap();
    }
    let (status, stdout, _) = run(&room, &["--json", names[0], names[1]]);
    let json = json::read(&stdout);
    assert_eq!(status, 0);
    assert_eq!(json.get("older").get("file").text(), names[0]);
    assert_eq!(json.get("newer").get("file").text(), names[1]);
    let tags = html::read(&page_of(&room, names[0], names[1]));
    let files = tags.iter().filter(|tag| tag.name == "bdi").map(|tag| tag.text.as_str());
    let shown = "a\u{FFFD}\u{FFFD}\u{FFFD}\u{FFFD}\\\u{FFFD}.img";
    assert_eq!(files.take(2).collect::<Vec<_>>(), [names[0], shown]);
    let (_, stdout, _) = run(&room, &["--html", "<p>\n.html", names[0], names[1]]);
    assert!(stdout.ends_with("\npage: <p>\u{FFFD}.html\n"));
    html::read(&fs::read_to_string(room.join("<p>\n.html")).unwrap());
}

#[test]
fn json_and_page() {
    let room = with_images("both", &["m.img", "m2.img"]);
    let (_, alone, _) = run(&room, &["--json", "m.img", "m2.img"]);
    let (status, stdout, stderr) = run(&room, &["--json", "--html=p.html", "m.img", "m2.img"]);
    assert_eq!((status, stdout, stderr.as_str()), (0, alone, ""));
    html::read(&fs::read_to_string(room.join("p.html")).unwrap());
}

/// The page takes the place of no image, also where that is standard input.
#[test]
fn page_over_an_image() {
    let room = with_images("over", &["m.img", "m2.img"]);
    let before = fs::read(room.join("m.img")).unwrap();
    let told = |args: &[&str]| {
        let mut command = command(&room, args);
        let run = command.stdin(fs::File::open(room.join("m.img")).unwrap()).output().unwrap();
        assert_eq!(run.status.code(), Some(2));
        assert_eq!(fs::read(room.join("m.img")).unwrap(), before);
        String::from_utf8(run.stderr).unwrap()
    };
    assert!(told(&["--html", "m.img", "m.img", "m2.img"]).contains("m.img is an image of the two"));
    assert!(told(&["--html", "m.img", "-", "m2.img"]).contains("- is an image of the two"));
    fs::write(room.join("-"), "").unwrap();
    let (status, _, stderr) = run_on(&room, &["--html", "./-", "-", "m2.img"], &before);
    assert_eq!((status, stderr.as_str()), (0, ""));
}

/// A refused image is told with its file; nothing is printed, and no page is written.
#[test]
fn refused_images() {
    let room = with_images("refused", &["m.img"]);
    let image = fs::read(room.join("m.img")).unwrap();
    let mut bad_range = image.clone();
    bad_range[32 + 8] = 9;
    fs::write(room.join("range"), bad_range).unwrap();
    fs::write(room.join("short"), &image[..31]).unwrap();
    let html = ["--json", "--html", "page.html"];
    let told = |older: &str, newer: &str| {
        let args = [&html[..], &[older, newer]].concat();
        let (status, stdout, stderr) = run(&room, &args);
        assert_eq!((status, stdout.as_str()), (1, ""));
        stderr
    };
    let range = "error[3]: a range is bad\n --> range\n";
    let short = "error[1]: the image has a wrong length\n --> short\n";
    for file in ["range", "short"] {
        let expected = if file == "range" { range } else { short };
        assert!(told(file, "m.img").starts_with(expected));
        assert!(told("m.img", file).starts_with(expected));
    }
    let both = told("range", "short");
    assert!(both.starts_with(range) && both.contains(short), "{both}");
    assert!(!room.join("page.html").exists());
    let bytes = |name: &str| fs::read(room.join(name)).unwrap();
    assert!(matches!(list_changes(&image, &bytes("short")), Err(PairRefusal::Newer(_))));
}

/// Wrong use and files that can't be read: one line, status 2, nothing printed.
#[test]
fn wrong_use() {
    let room = with_images("wrong", &["m.img", "m2.img"]);
    let cases: [(&[&str], &str); 7] = [
        (&[], "the older image's name is missing"),
        (&["m.img"], "the newer image's name is missing"),
        (&["m.img", "m2.img", "x"], "x: one name too many"),
        (&["-", "-"], "standard input can't be both images"),
        (&["--html", "", "m.img", "m2.img"], "--html: a name is needed"),
        (&["--html=-", "m.img", "m2.img"], "--html: a name is needed"),
        (&["--html", "./m2.img", "m.img", "m2.img"], "--html: m2.img is an image of the two"),
    ];
    let unread: [(&[&str], &str); 2] = [
        (&["m.img", "none"], "none: No such file or directory"),
        (&[".", "m.img"], ".: Is a directory"),
    ];
    let help = "(`luffinarc help changes` shows the use)";
    let wrong = cases.iter().map(|(args, message)| (*args, format!("changes: {message} {help}")));
    let unread = unread.iter().map(|(args, message)| (*args, message.to_string()));
    let before = fs::read(room.join("m2.img")).unwrap();
    for (args, message) in wrong.chain(unread) {
        let (status, stdout, stderr) = run(&room, args);
        assert_eq!((status, stdout.as_str()), (2, ""));
        assert_eq!(stderr, format!("luffinarc: {message}\n"));
    }
    assert_eq!(fs::read(room.join("m2.img")).unwrap(), before);
    assert_eq!(fs::read_dir(&room).unwrap().count(), 2);
}

/// The changes are printed, and that the page can't be written is told in one line.
#[test]
fn unwritable_page() {
    let room = with_images("unwritable", &["m.img", "m2.img"]);
    let (_, alone, _) = run(&room, &["m2.img", "m.img"]);
    for page in ["missing/page.html", "missing/a\nb.html"] {
        let (status, stdout, stderr) = run(&room, &["--html", page, "m2.img", "m.img"]);
        let shown = page.replace('\n', "\u{FFFD}");
        assert_eq!((status, stdout), (2, alone.clone()));
        assert_eq!(stderr, format!("luffinarc: {shown}: No such file or directory\n"));
    }
    let (status, _, stderr) = run(&room, &["--html", ".", "m2.img", "m.img"]);
    assert_eq!((status, stderr.lines().count()), (2, 1));
    assert_eq!(fs::read_dir(&room).unwrap().count(), 2);
}

/// Standard output that fails; the page is written all the same.
#[test]
fn failing_output() {
    let room = with_images("output", &["m.img", "m2.img", "unicode-14.0.img", "unicode-17.0.img"]);
    for args in [&["m.img", "m2.img"][..], &["--json", "m.img", "m2.img"]] {
        let full = fs::OpenOptions::new().write(true).open("/dev/full").unwrap();
        let output = command(&room, args).stdout(full).output().unwrap();
        assert_eq!(output.status.code(), Some(2));
        let message = "luffinarc: standard output: No space left on device\n";
        assert_eq!(String::from_utf8(output.stderr).unwrap(), message);
    }
    let args = ["--html", "p.html", "unicode-14.0.img", "unicode-17.0.img"];
    let mut child =
        command(&room, &args).stdout(Stdio::piped()).stderr(Stdio::piped()).spawn().unwrap();
    drop(child.stdout.take());
    let output = child.wait_with_output().unwrap();
    assert_eq!((output.status.code(), output.stderr), (Some(2), vec![]));
    html::read(&fs::read_to_string(room.join("p.html")).unwrap());
}

#[test]
fn standard_input() {
    let room = with_images("stdin", &["m.img", "m2.img"]);
    let file = fs::File::open(room.join("m.img")).unwrap();
    let output = command(&room, &["-", "m2.img"]).stdin(file).output().unwrap();
    let stdout = String::from_utf8(output.stdout).unwrap();
    assert_eq!(output.status.code(), Some(0));
    assert!(stdout.starts_with("older: <stdin>: Unicode 16.0.0, 5 ranges"), "{stdout}");
}

#[test]
fn colours() {
    let room = with_images("colours", &["m.img", "m2.img"]);
    let (_, yes, _) = run(&room, &["--color=always", "m.img", "m2.img"]);
    let (_, no, _) = run(&room, &["--color=always", "m2.img", "m.img"]);
    assert!(yes.contains("\n\x1b[1;32myes: the newer may follow"), "{yes}");
    assert!(no.contains("\n\x1b[1;31mno: the newer may not follow"), "{no}");
    assert!(yes.contains("\n\x1b[1mfirst   last    code points"), "{yes}");
    let (_, plain, _) = run(&room, &["m.img", "m2.img"]);
    assert!(!plain.contains('\x1b'));
}
