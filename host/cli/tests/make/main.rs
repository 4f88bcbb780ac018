//! Runs `luffinarc make`: the ready images byte for byte, and its errors.

mod outputs;
mod profiles;
mod room;
mod sources;
mod unicode_data;
mod wholeness;

use room::{failed, make, Room, DATA};
use std::fs;
use std::process::Command;

#[test]
fn ready_images() {
    let room = Room::new("ready");
    let scripts = format!("{DATA}/profiles/scripts.profile");
    let made = [
        ("unicode", "14.0", None, "Unicode 14.0.0, 1,428 ranges, no profile"),
        ("unicode", "15.0", None, "Unicode 15.0.0, 1,452 ranges, no profile"),
        ("unicode", "16.0", None, "Unicode 16.0.0, 1,498 ranges, no profile"),
        ("unicode", "17.0", None, "Unicode 17.0.0, 1,519 ranges, no profile"),
        (
            "scripts",
            "16.0",
            Some(&scripts),
            "Unicode 16.0.0, 1,498 ranges, a profile of 13 entries",
        ),
        (
            "scripts",
            "17.0",
            Some(&scripts),
            "Unicode 17.0.0, 1,519 ranges, a profile of 13 entries",
        ),
    ];
    for (name, version, profile, words) in made {
        let folder = format!("{DATA}/ucd/{version}");
        let out = room.path.join("image");
        let profile = profile.map(AsRef::as_ref);
        let output = make(&format!("{version}.0"), folder.as_ref(), profile, &out);
        assert_eq!(String::from_utf8_lossy(&output.stderr), "");
        assert!(output.status.success());
        let line = format!("{}: {words}\n", out.display());
        assert_eq!(String::from_utf8_lossy(&output.stdout), line);
        let ready = fs::read(format!("{DATA}/images/{name}-{version}.img")).unwrap();
        assert!(fs::read(&out).unwrap() == ready, "{name} {version} differs");
    }
    assert_eq!(fs::read_dir(&room.path).unwrap().count(), 2);
}

#[test]
fn command_line() {
    let room = Room::new("command");
    for version in ["16", "16.0", "16.0.0.0", "16.0.256", "16.+0.0", "16.x.0", "", "65536.0.0"] {
        let line = failed(make(version, &room.folder, None, &room.path.join("image")));
        assert!(line.contains(&format!("--version {version}: not a version")), "{line}");
    }
    let cases = [
        (&["--version"][..], "--version: no value"),
        (&["--other", "x"], "--other: no such option"),
        (&["--out", "a", "--out", "b"], "--out: given twice"),
        (&["x", "--version", "16.0.0"], "x: one name too many"),
        (&["--version", "16.0.0", "--out", "a"], "--folder is missing"),
        (&["--version", "16.0.0", "--folder", "a"], "--out is missing"),
        (&[], "--version is missing"),
    ];
    for (args, message) in cases {
        let mut command = Command::new(env!("CARGO_BIN_EXE_luffinarc"));
        let line = failed(command.arg("make").args(args).output().unwrap());
        assert!(line.contains(message) && line.contains("help make"), "{line}");
    }
    assert_eq!(fs::read_dir(&room.path).unwrap().count(), 1);
}
