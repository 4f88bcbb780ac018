//! A folder for one test, with sources that it may change, and runs of the command in it.

use std::fs;
use std::path::{Path, PathBuf};
use std::process::{Command, Output};

pub const DATA: &str = concat!(env!("CARGO_MANIFEST_DIR"), "/../data");
pub const FILES: [&str; 3] = ["Assigned.txt", "DerivedCoreProperties.txt", "PropList.txt"];

pub type Span = (u32, u32);
/// The properties of a file, in its order.
pub type Properties = Vec<(String, Vec<Span>)>;

pub fn make(version: &str, folder: &Path, profile: Option<&Path>, out: &Path) -> Output {
    let mut command = Command::new(env!("CARGO_BIN_EXE_luffinarc"));
    command.args(["make", "--version", version, "--folder"]).arg(folder);
    if let Some(profile) = profile {
        command.arg("--profile").arg(profile);
    }
    command.arg("--out").arg(out).output().unwrap()
}

/// The run failed: status 2, nothing on standard output, one line on standard error. Answers that line.
pub fn failed(output: Output) -> String {
    let stderr = String::from_utf8(output.stderr).unwrap();
    assert_eq!(output.status.code(), Some(2), "{stderr}");
    assert_eq!(output.stdout, b"", "{stderr}");
    assert!(stderr.starts_with("luffinarc: ") && stderr.ends_with('\n'), "{stderr}");
    assert_eq!(stderr.lines().count(), 1, "{stderr}");
    stderr
}

/// A short file with these properties, of Unicode 16.0.
pub fn short(properties: &Properties) -> String {
    let mut text = "# Unicode 16.0, for a test\n".to_string();
    for (name, spans) in properties {
        for (first, last) in spans {
            text += &format!("{first:04X}..{last:04X} ; {name}\n");
        }
        let total: u32 = spans.iter().map(|(first, last)| last - first + 1).sum();
        text += &format!("# Total code points: {total}\n");
    }
    text + "# EOF\n"
}

/// The properties of a short file.
pub fn properties(text: &str) -> Properties {
    let mut read: Properties = Vec::new();
    let hex = |digits: &str| u32::from_str_radix(digits, 16).unwrap();
    for line in text.lines().filter(|line| !line.starts_with('#')) {
        let (field, name) = line.split_once(" ; ").unwrap();
        let (first, last) = field.split_once("..").unwrap_or((field, field));
        if read.last().map_or(true, |(last, _)| last != name) {
            read.push((name.to_string(), vec![]));
        }
        read.last_mut().unwrap().1.push((hex(first), hex(last)));
    }
    read
}

/// The lines before `# EOF` and these, then `# EOF`.
pub fn with_lines(text: &str, lines: &str) -> String {
    format!("{}{lines}\n# EOF\n", text.strip_suffix("# EOF\n").unwrap())
}

/// A fresh folder, and in it a copy of the 16.0 files.
pub struct Room {
    pub path: PathBuf,
    pub folder: PathBuf,
}

impl Room {
    pub fn new(name: &str) -> Room {
        let path = Path::new(env!("CARGO_TARGET_TMPDIR")).join(name);
        let _ = fs::remove_dir_all(&path);
        let folder = path.join("ucd");
        fs::create_dir_all(&folder).unwrap();
        for name in FILES {
            fs::copy(format!("{DATA}/ucd/16.0/{name}"), folder.join(name)).unwrap();
        }
        Room { path, folder }
    }

    /// The text of a source.
    pub fn text(&self, name: &str) -> String {
        fs::read_to_string(self.folder.join(name)).unwrap()
    }

    /// Changes a source, or adds one.
    pub fn put(&self, name: &str, text: impl AsRef<[u8]>) {
        fs::write(self.folder.join(name), text).unwrap();
    }

    pub fn remove(&self, name: &str) {
        fs::remove_file(self.folder.join(name)).unwrap();
    }

    /// The run fails with this message, and leaves no file.
    pub fn fails_with(&self, folder: &Path, profile: Option<&Path>, message: &str) {
        let outputs = self.path.join("outputs");
        fs::create_dir_all(&outputs).unwrap();
        let line = failed(make("16.0.0", folder, profile, &outputs.join("image")));
        assert!(line.contains(message), "wanted {message}, got {line}");
        assert_eq!(fs::read_dir(&outputs).unwrap().count(), 0);
    }

    /// A run on the sources as they are fails.
    pub fn fails(&self, message: &str) {
        self.fails_with(&self.folder, None, message);
    }

    /// The 16.0 image comes out of the sources as they are.
    pub fn makes_reference(&self) {
        let out = self.path.join("image");
        let output = make("16.0.0", &self.folder, None, &out);
        assert!(output.status.success(), "{}", String::from_utf8_lossy(&output.stderr));
        let reference = fs::read(format!("{DATA}/images/unicode-16.0.img")).unwrap();
        assert!(fs::read(&out).unwrap() == reference);
    }
}
