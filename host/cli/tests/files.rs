//! Files that are damaged, missing, huge or cannot be written, and wrong use: one clear answer, never a panic.

mod common;

use common::{command, image, room, run, run_command, run_with, Run, DATA};
use luffinarc::{Image, Refusal};
use std::fs;
use std::process::Stdio;

/// Commands that take an image and nothing else that must be there.
const COMMANDS: [&str; 4] = ["tokens", "hashtags", "check", "show"];

/// The run fails with status 2 and this one line.
fn fails(run: Run, line: &str) {
    assert_eq!((run.status, run.out.as_str()), (2, ""), "{}", run.err);
    assert_eq!(run.err, format!("luffinarc: {line}\n"));
}

#[test]
fn wrong_use() {
    let help = "(`luffinarc --help` shows the use)";
    fails(run(&[]), &format!("no command is named {help}"));
    fails(run(&["token"]), &format!("token: no such command {help}"));
    fails(run(&["help", "token"]), &format!("token: no such command {help}"));
    fails(run(&["--help", "x"]), &format!("one name too many {help}"));
    for name in ["tokens", "hashtags", "check", "show", "lookup"] {
        let help = format!("(`luffinarc help {name}` shows the use)");
        fails(run(&[name]), &format!("{name}: the image's name is missing {help}"));
        fails(run(&[name, "--colour"]), &format!("{name}: --colour: no such option {help}"));
        fails(run(&[name, "-x"]), &format!("{name}: -x: no such option {help}"));
        fails(run(&[name, "--color"]), &format!("{name}: --color: no value {help}"));
        fails(
            run(&[name, "--color", "red"]),
            &format!("{name}: --color red: not auto, always or never {help}"),
        );
        fails(run(&[name, "--help=1"]), &format!("{name}: --help: takes no value {help}"));
    }
    let both = ["tokens", "--json", "--records", "x"];
    fails(
        run(&both),
        "tokens: --records and --json exclude each other (`luffinarc help tokens` shows the use)",
    );
    fails(
        run(&["tokens", "--json", "--json", "x"]),
        "tokens: --json: given twice (`luffinarc help tokens` shows the use)",
    );
    fails(
        run(&["show", "x", "y"]),
        "show: y: one name too many (`luffinarc help show` shows the use)",
    );
}

#[test]
fn help_and_version() {
    let all = run(&["--help"]);
    assert_eq!((all.status, &all), (0, &run(&["help"])));
    for name in ["tokens", "hashtags", "check", "changes", "lookup", "show", "make"] {
        assert!(all.out.contains(&format!("\n  {name} ")), "{name}");
        let help = run(&["help", name]);
        assert!(
            help.status == 0 && help.out.contains(&format!("\nusage: luffinarc {name} ")),
            "{name}"
        );
        assert_eq!(run(&[name, "--help"]), help);
        assert_eq!(run(&[name, "-h"]), help);
    }
    assert_eq!(run(&["help", "help"]), all);
    assert_eq!(run(&["-V"]), run(&["--version"]));
    assert_eq!(run(&["--version"]).out, format!("luffinarc {}\n", env!("CARGO_PKG_VERSION")));
}

#[test]
fn unreadable_files() {
    let room = room("unreadable");
    let (missing, folder) = (room.join("missing"), room.to_str().unwrap());
    let missing = missing.to_str().unwrap();
    for name in COMMANDS {
        fails(run(&[name, missing]), &format!("{missing}: No such file or directory"));
        fails(run(&[name, folder]), &format!("{folder}: Is a directory"));
    }
    fails(run(&["show", ""]), "an empty name is no file");
    let image = image("unicode-16.0");
    fails(run(&["tokens", &image, missing]), &format!("{missing}: No such file or directory"));
    fails(run(&["hashtags", &image, folder]), &format!("{folder}: Is a directory"));
}

#[cfg(unix)]
#[test]
fn a_name_that_is_not_utf8() {
    use std::ffi::OsStr;
    use std::os::unix::ffi::OsStrExt;
    let room = room("names");
    let name = room.join(OsStr::from_bytes(b"a\xFF\n"));
    fs::write(&name, "b 1").unwrap();
    let image = image("unicode-16.0");
    let printed = run_command(command().args(["tokens", &image]).arg(&name), b"");
    assert_eq!(printed.status, 1);
    let place = format!(" --> {}/a\u{FFFD}\u{FFFD}:1:3\n", room.display());
    assert!(printed.err.contains(&place), "{}", printed.err);
    let printed =
        run_command(command().arg("lookup").arg(&image).arg(OsStr::from_bytes(b"\xFF")), b"");
    assert_eq!(printed.status, 2);
    // Beside an option.
    let mut made = command();
    made.args(["make", "--version", "16.0.0", "--folder"]).arg(format!("{DATA}/ucd/16.0"));
    made.arg(OsStr::from_bytes(b"--out=b\xFF.img")).current_dir(&room);
    assert_eq!(run_command(&mut made, b"").status, 0);
    assert!(room.join(OsStr::from_bytes(b"b\xFF.img")).is_file());
}

#[test]
fn a_name_that_begins_as_an_option() {
    let (room, image) = (room("end-of-options"), image("unicode-16.0"));
    fs::write(room.join("-x"), "b").unwrap();
    let mut listed = command();
    let printed = run_command(listed.args(["tokens", "--", &image, "-x"]).current_dir(&room), b"");
    assert_eq!((printed.status, printed.out.as_str()), (0, "1:1 identifier b\n"));
}

/// Every image that the library refuses is told with its number, the file and why.
#[test]
fn damaged_images() {
    let whole = fs::read(image("m")).unwrap();
    let file = room("damaged").join("image");
    let name = file.to_str().unwrap();
    let mut seen = [0; 5];
    let mut cases: Vec<Vec<u8>> = (0..whole.len()).map(|length| whole[..length].to_vec()).collect();
    for at in 0..whole.len() {
        for change in [1, 0x80] {
            let mut bytes = whole.clone();
            bytes[at] ^= change;
            cases.push(bytes);
        }
    }
    for bytes in cases {
        let number = Image::check(&bytes).map_or_else(|refusal: Refusal| refusal.number(), |_| 0);
        seen[number as usize] += 1;
        fs::write(&file, &bytes).unwrap();
        let printed = run(&["check", name]);
        assert_eq!(printed.status, i32::from(number > 0), "{printed:?}");
        if number > 0 {
            let head = format!("error[{number}]: ");
            assert!(printed.err.starts_with(&head), "{printed:?}");
            assert_eq!(printed.out, format!("{name}: refused ({number})\n"));
            assert!(printed.err.contains(&format!("\n --> {name}\n  = note: ")), "{printed:?}");
        }
    }
    assert!(seen.iter().all(|&count| count > 3), "{seen:?}");
}

/// Pieces of texts: 14 characters and bytes that are in none.
const PIECES: [&[u8]; 14] = [
    b"a",
    b" ",
    b"\n",
    b"\r",
    b"1",
    b"\t",
    "ą".as_bytes(),
    "\u{301}".as_bytes(),
    "\u{200E}".as_bytes(),
    "\u{2028}".as_bytes(),
    "𞤲".as_bytes(),
    "压".as_bytes(),
    b"\xFF",
    b"\xE2\x80",
];

/// Whatever the bytes of a text or an image are, a run ends with 0 or 1, and 1 has a message.
#[test]
fn any_bytes() {
    let image_name = image("scripts-17.0");
    let file = room("any").join("file");
    let name = file.to_str().unwrap();
    let mut state = 88172645463325252u64;
    let mut next = move || {
        state ^= state << 13;
        state ^= state >> 7;
        state ^= state << 17;
        state
    };
    let mut statuses = [0; 2];
    for round in 0..300 {
        let length = next() % 200;
        let text: Vec<u8> =
            (0..length).flat_map(|_| PIECES[(next() % 14) as usize].to_vec()).collect();
        fs::write(&file, text).unwrap();
        let args = match round % 4 {
            0 => vec!["check", name],
            1 => vec!["hashtags", "--json", &image_name, name],
            2 => vec!["tokens", "--json", &image_name, name],
            _ => vec!["check", &image_name, name],
        };
        let printed = run(&args);
        assert!(printed.status <= 1, "{printed:?}");
        assert_eq!(printed.status == 1, printed.err.starts_with("error["), "{printed:?}");
        statuses[printed.status as usize] += 1;
    }
    assert!(statuses.iter().all(|&count| count > 5), "{statuses:?}");
}

/// A word of M's bytes, another number for it, and why the image is then refused.
const REASONS: [(usize, u32, &str); 16] = [
    (0, 2, "the format is 2, not 1"),
    (8, 7, "the file has 100 bytes, and its header says 7"),
    (12, 5000, "5,000 ranges, at most 4,096 may be"),
    (12, 357_913_942, "357,913,942 ranges, at most 4,096 may be"),
    (16, 33, "the ranges' offset is 33, not 32"),
    (20, 513, "513 profile entries, at most 512 may be"),
    (24, 91, "the profile's offset is 91, not 92"),
    (28, 1, "the last word of the header is 1, not 0"),
    (44, 0x2F, "range 1, U+002F to U+002E of class 3: its last code point is before its first"),
    (40, 9, "range 0, U+0020 to U+0020 of class 9: its class is 9, not 1 to 5"),
    (84, 0x110000, "range 4, U+0061 to U+110000 of class 1: it ends after U+10FFFF"),
    (84, 0xD800, "range 4, U+0061 to U+D800 of class 1: it holds surrogates"),
    (44, 0x20, "range 1, U+0020 to U+002E of class 3: it does not begin after the range before it"),
    (72, 0x60, "range 4, U+0061 to U+007A of class 1: it touches the range before it, which has the same class"),
    (92, 0xD800, "entry 0, U+D800 with role 3: it is no scalar value"),
    (96, 6, "entry 0, U+002E with role 6: its role is 6, not 1 to 5"),
];

#[test]
fn reasons() {
    let whole = fs::read(image("m")).unwrap();
    let file = room("reasons").join("image");
    for (at, word, reason) in REASONS {
        let mut bytes = whole.clone();
        bytes[at..at + 4].copy_from_slice(&word.to_le_bytes());
        fs::write(&file, &bytes).unwrap();
        let err = run(&["show", file.to_str().unwrap()]).err;
        assert_eq!(err.lines().nth(2), Some(format!("  = note: {reason}").as_str()));
    }
}

#[test]
fn a_text_for_an_image() {
    let printed = run_with(&["show", "-"], b"x = 1\n");
    assert_eq!((printed.status, printed.out.as_str()), (1, ""));
    let note = "= note: a class image begins with the word 1: is this file one?\n";
    assert!(printed.err.ends_with(note), "{}", printed.err);
}

#[test]
fn standard_input_once() {
    let image = image("unicode-16.0");
    for name in ["tokens", "hashtags", "check"] {
        let help = format!("(`luffinarc help {name}` shows the use)");
        let both = format!("{name}: standard input can't be the image and a text {help}");
        fails(run(&[name, "-", "-"]), &both);
        let twice = format!("{name}: standard input is named twice {help}");
        fails(run(&[name, &image, "-", "-"]), &twice);
    }
    fails(run(&["tokens", "-"]), "tokens: standard input can't be the image and a text (`luffinarc help tokens` shows the use)");
    assert_eq!(run_with(&["check", "-"], &fs::read(image).unwrap()).status, 0);
}

/// Streams that are closed, or open in the wrong direction, are no success.
#[test]
fn closed_streams() {
    let (image, binary) = (image("unicode-16.0"), env!("CARGO_BIN_EXE_luffinarc"));
    let shell = |line: &str| {
        let mut shell = std::process::Command::new("sh");
        let line = format!("{binary} {line}");
        run_command(shell.args(["-c", &line, "sh", &image]), b"a")
    };
    let input = "luffinarc: <stdin>: Bad file descriptor\n";
    let output = "luffinarc: standard output: Bad file descriptor\n";
    let told = |line: &str| {
        let Run { status, err, .. } = shell(line);
        (status, err)
    };
    assert_eq!(told("check $1 - <&-"), (2, input.to_string()));
    assert_eq!(told("check $1 - 0>/dev/null"), (2, input.to_string()));
    assert_eq!(told("check $1 - >&-"), (2, output.to_string()));
    assert_eq!(told("check $1 - 1</dev/null"), (2, output.to_string()));
    assert_eq!(told("check $1 - 2>&-"), (0, String::new()));
    assert_eq!(told("check $1 - >/dev/null"), (0, String::new()));
}

/// A file that was opened only to be named can't be read (O_PATH of Linux).
#[cfg(target_os = "linux")]
#[test]
fn an_input_that_is_only_named() {
    use std::os::unix::fs::OpenOptionsExt;
    let image = image("unicode-16.0");
    let only_named =
        fs::OpenOptions::new().read(true).custom_flags(0o10000000).open(&image).unwrap();
    let mut command = command();
    let output = command.args(["check", &image, "-"]).stdin(only_named).output().unwrap();
    assert_eq!(output.status.code(), Some(2));
    assert_eq!(output.stderr, b"luffinarc: <stdin>: Bad file descriptor\n");
}

/// A hostile name makes no second line and no escape sequence.
#[test]
fn names_that_cannot_be_seen() {
    let name = "x\u{1B}]0;t\u{7}\nluffinarc: all accepted\u{202E}";
    let shown = "x\u{FFFD}]0;t\u{FFFD}\u{FFFD}luffinarc: all accepted\u{FFFD}";
    let image = image("unicode-16.0");
    let (option, number) = (format!("--{name}"), format!("U+{name}"));
    let all: [&[&str]; 6] = [
        &[name],
        &["check", &image, name],
        &["check", &image, &option],
        &["tokens", "--color", name, &image],
        &["lookup", &image, &number],
        &["show", &image, name],
    ];
    for args in all {
        let Run { status, err, .. } = run(args);
        assert_eq!((status, err.lines().count()), (2, 1), "{err}");
        assert!(err.starts_with("luffinarc: ") && err.contains(shown), "{err}");
    }
}

/// Files without an end are read as far as tells that they are too long.
#[cfg(target_os = "linux")]
#[test]
fn files_without_an_end() {
    let image = image("unicode-16.0");
    assert_eq!(run(&["check", "/dev/zero"]).status, 1);
    let printed = run(&["check", &image, "/dev/zero"]);
    assert_eq!(printed.status, 1);
    assert!(printed.err.starts_with("error[5]: the text is too long\n --> /dev/zero\n"));
}

#[cfg(target_os = "linux")]
#[test]
fn a_full_disk() {
    let image = image("unicode-16.0");
    for args in [vec!["show", "--ranges", &image], vec!["check", &image], vec!["--help"]] {
        let full = fs::OpenOptions::new().write(true).open("/dev/full").unwrap();
        let mut command = command();
        let child = command.args(&args).stdin(Stdio::null()).stdout(full).stderr(Stdio::piped());
        let output = child.spawn().unwrap().wait_with_output().unwrap();
        assert_eq!(output.status.code(), Some(2));
        let line = "luffinarc: standard output: No space left on device\n";
        assert_eq!(String::from_utf8(output.stderr).unwrap(), line);
    }
}

/// Where nobody reads on, the command stops and says nothing.
#[test]
fn a_closed_pipe() {
    let text = room("pipe").join("text");
    fs::write(&text, "a ".repeat(500_000)).unwrap();
    let mut command = command();
    command.args(["tokens", &image("unicode-16.0")]).arg(&text).stdin(Stdio::null());
    let mut child = command.stdout(Stdio::piped()).stderr(Stdio::piped()).spawn().unwrap();
    drop(child.stdout.take());
    let output = child.wait_with_output().unwrap();
    assert_eq!((output.status.code(), output.stderr.len()), (Some(2), 0));
}

#[test]
fn lookup() {
    let image = image("scripts-17.0");
    let printed = run(&["lookup", &image, "ą4", "U+1e900", "u+2E", "U+0", "U", "+"]);
    let expected = "U+0105 ą Start\nU+0034 4 Start, role Start in the profile\nU+1E900 𞤀 Start\n\
                    U+002E . Syntax, role Medial in the profile\nU+0000 Other\nU+0055 U Start\nU+002B + Syntax\n";
    assert_eq!((printed.status, printed.out.as_str()), (0, expected));
    let printed = run(&["lookup", &image, "U+D800", "U+10FFFF", "U+110000", "U+FFFFFFFF"]);
    assert_eq!((printed.status, printed.out.as_str()), (1, "U+10FFFF Unassigned\n"));
    assert_eq!(printed.err.matches("error[9]: the number is no scalar value\n").count(), 3);
    let help = "(`luffinarc help lookup` shows the use)";
    fails(run(&["lookup", &image]), &format!("lookup: a character or U+HEX is missing {help}"));
    fails(
        run(&["lookup", &image, ""]),
        &format!("lookup: an empty argument names no character {help}"),
    );
    for bad in ["U+100000000", "U+xyz", "U++1", "U+", "u+"] {
        fails(
            run(&["lookup", &image, bad]),
            &format!("lookup: {bad}: not U+ and a hexadecimal number of 32 bits {help}"),
        );
    }
}

#[test]
fn show() {
    let m = image("m");
    let printed = run(&["show", "--ranges", &m]);
    let expected = format!(
        "{m}: Unicode 16.0.0, 5 ranges, a profile of 1 entry\n\n\
         class         ranges  code points\n\
         Start              2           52\n\
         Nonstart           1           10\n\
         Syntax             1            1\n\
         White              1            1\n\
         Other              0            0\n\n\
         role       profile entry\n\
         Medial     U+002E .\n\n\
         class      range\n\
         White      U+0020 to U+0020\n\
         Syntax     U+002E to U+002E\n\
         Nonstart   U+0030 to U+0039\n\
         Start      U+0041 to U+005A\n\
         Start      U+0061 to U+007A\n"
    );
    assert_eq!((printed.status, printed.out), (0, expected));
    assert_eq!(run(&["show", &image("unicode-17.0")]).out.lines().count(), 8);
}
