//! Where the image goes: names that are refused, and files that are kept.

use crate::room::{failed, make, Room, FILES};
use luffinarc_maker::store;
use std::fs;
use std::os::unix::fs::symlink;
use std::path::Path;
use std::process::Command;

#[test]
fn failures() {
    let room = Room::new("output");
    let line = failed(make("16.0.0", &room.folder, None, &room.folder));
    assert!(line.ends_with("ucd: not a plain file\n"), "{line}");
    let line = failed(make("16.0.0", &room.folder, None, &room.path.join("no/image")));
    assert!(line.ends_with("no/image: No such file or directory\n"), "{line}");
    assert_eq!(fs::read_dir(&room.path).unwrap().count(), 1);
    // An image from before is kept when a later run fails.
    let image = room.path.join("image");
    fs::write(&image, "before").unwrap();
    room.remove("PropList.txt");
    failed(make("16.0.0", &room.folder, None, &image));
    assert_eq!(fs::read(&image).unwrap(), b"before");
    assert_eq!(fs::read_dir(&room.path).unwrap().count(), 2);
}

#[test]
fn no_file_name() {
    let room = Room::new("no-name");
    for name in ["", "-"] {
        let line = failed(make("16.0.0", &room.folder, None, Path::new(name)));
        let why = "luffinarc: make: --out: a name is needed (`luffinarc help make`";
        assert!(line.starts_with(why), "{line}");
    }
}

/// A file that is replaced keeps its permissions, and one that may not be written is left.
#[test]
fn permissions() {
    use std::os::unix::fs::PermissionsExt;
    let room = Room::new("permissions");
    let image = room.path.join("image");
    fs::write(&image, "before").unwrap();
    let set = |mode| fs::set_permissions(&image, fs::Permissions::from_mode(mode)).unwrap();
    let mode = || fs::metadata(&image).unwrap().permissions().mode() & 0o777;
    set(0o444);
    let line = failed(make("16.0.0", &room.folder, None, &image));
    assert!(line.ends_with("image: permission denied\n"), "{line}");
    assert_eq!((fs::read(&image).unwrap(), mode()), (b"before".to_vec(), 0o444));
    set(0o600);
    assert!(make("16.0.0", &room.folder, None, &image).status.success());
    assert_eq!(mode(), 0o600);
    assert_ne!(fs::read(&image).unwrap(), b"before");
}

/// The run fails because of its output, before the profile, which is bad, is read.
fn is_source(folder: &Path, profile: &Path, out: &Path) {
    let line = failed(make("16.0.0", folder, Some(profile), out));
    let why = format!("make: --out: {} is a file that an image is made from (`", out.display());
    assert!(line.starts_with(&format!("luffinarc: {why}")), "{line}");
}

#[test]
fn profile_as_output() {
    let room = Room::new("profile-output");
    let [profile, link, image] = ["p", "link", "image"].map(|name| room.path.join(name));
    fs::write(&profile, "bad").unwrap();
    symlink("p", &link).unwrap();
    for (profile, out) in [(&profile, &profile), (&profile, &link), (&link, &profile)] {
        is_source(&room.folder, profile, out);
    }
    is_source(&room.folder, &profile, &room.folder.join("../p"));
    assert_eq!(fs::read(&profile).unwrap(), b"bad");
    // Names in the folder where the command is run.
    let args = ["make", "--version", "16.0.0", "--folder", "ucd", "--profile", "p", "--out", "p"];
    let mut command = Command::new(env!("CARGO_BIN_EXE_luffinarc"));
    let line = failed(command.current_dir(&room.path).args(args).output().unwrap());
    assert!(line.contains("--out: p is a file that"), "{line}");
    fs::write(&profile, "U+002E Medial").unwrap();
    assert!(make("16.0.0", &room.folder, Some(&profile), &image).status.success());
}

/// No output has the name of a source in the folder, whether there is one or not.
#[test]
fn sources_as_output() {
    let room = Room::new("source-output");
    let profile = room.path.join("bad.profile");
    fs::write(&profile, "bad").unwrap();
    fs::create_dir(room.folder.join("extracted")).unwrap();
    let texts = FILES.map(|name| room.text(name));
    let others = ["UnicodeData.txt", "DerivedGeneralCategory.txt"];
    let extracted = "extracted/DerivedGeneralCategory.txt";
    for name in FILES.into_iter().chain(others).chain([extracted]) {
        is_source(&room.folder, &profile, &room.folder.join(name));
        is_source(&room.folder, &profile, &room.path.join("ucd/../ucd").join(name));
    }
    let options = luffinarc_maker::Options {
        version: luffinarc::Version::new(16, 0, 0),
        folder: room.folder.clone(),
        profile: None,
        out: room.folder.join("PropList.txt"),
    };
    assert!(luffinarc_maker::make(&options).unwrap_err().contains("is a file that an image"));
    assert_eq!(FILES.map(|name| room.text(name)), texts);
    assert!(make("16.0.0", &room.folder, None, &room.folder.join("image")).status.success());
}

/// A name may have as many bytes as the file system takes.
#[test]
fn long_names() {
    let room = Room::new("long-names");
    let name = "i".repeat(255);
    let output = make("16.0.0", &room.folder, None, &room.path.join(&name));
    assert!(output.status.success(), "{}", String::from_utf8_lossy(&output.stderr));
    let line = failed(make("16.0.0", &room.folder, None, &room.path.join(name + "i")));
    assert!(line.ends_with("ii: File name too long\n"), "{line}");
    assert_eq!(fs::read_dir(&room.path).unwrap().count(), 2);
}

/// What a link leads to is replaced, and the link is kept.
#[test]
fn links() {
    let room = Room::new("links");
    let [kept, link, far] = ["kept", "link", "ucd/far"].map(|name| room.path.join(name));
    fs::write(&kept, "before").unwrap();
    symlink("kept", &link).unwrap();
    symlink("../link", &far).unwrap();
    for (link, text) in [(&link, "first"), (&far, "second")] {
        store(link, text.as_bytes()).unwrap();
        assert!(fs::symlink_metadata(link).unwrap().file_type().is_symlink());
        assert_eq!(fs::read_to_string(&kept).unwrap(), text);
        assert!(!fs::symlink_metadata(&kept).unwrap().file_type().is_symlink());
    }
    fs::remove_file(&kept).unwrap();
    let error = store(&far, b"third").unwrap_err();
    assert!(error.ends_with("ucd/far: a symbolic link that leads to no file"), "{error}");
    assert_eq!(fs::read_link(&link).unwrap(), Path::new("kept"));
    assert_eq!(fs::read_dir(&room.path).unwrap().count(), 2);
}

/// Files that have the name of a file being written are left alone.
#[test]
fn parts_of_others() {
    let room = Room::new("parts");
    let part = |number| room.path.join(format!(".luffinarc-{}-{number}.part", std::process::id()));
    let image = room.path.join("image");
    fs::write(part(0), "other").unwrap();
    store(&image, b"image").unwrap();
    assert_eq!(fs::read(part(0)).unwrap(), b"other");
    assert_eq!(fs::read_dir(&room.path).unwrap().count(), 3);
    (1..=100).for_each(|number| fs::write(part(number), "other").unwrap());
    let error = store(&image, b"again").unwrap_err();
    assert!(error.ends_with("image: File exists"), "{error}");
    assert_eq!(fs::read(&image).unwrap(), b"image");
    assert!((0..=100).all(|number| fs::read(part(number)).unwrap() == b"other"));
}
