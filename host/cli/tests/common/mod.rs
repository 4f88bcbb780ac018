//! Running the command in tests.

// Each test is a crate of its own and uses a part of this.
#![allow(dead_code)]

use std::fs;
use std::io::Write;
use std::path::{Path, PathBuf};
use std::process::{Command, Stdio};

/// The folder of the data.
pub const DATA: &str = concat!(env!("CARGO_MANIFEST_DIR"), "/../data");

/// An image of the data.
pub fn image(name: &str) -> String {
    format!("{DATA}/images/{name}.img")
}

/// A fresh folder for one test.
pub fn room(name: &str) -> PathBuf {
    let room = Path::new(env!("CARGO_TARGET_TMPDIR")).join(name);
    let _ = fs::remove_dir_all(&room);
    fs::create_dir_all(&room).unwrap();
    room
}

/// The command, which finds no terminal and no settings of the user's.
pub fn command() -> Command {
    let mut command = Command::new(env!("CARGO_BIN_EXE_luffinarc"));
    command.env_remove("NO_COLOR").env("TERM", "xterm");
    command
}

/// What a run printed, and its exit status.
#[derive(Debug, PartialEq, Eq)]
pub struct Run {
    pub status: i32,
    pub out: String,
    pub err: String,
}

/// Runs a command with this standard input.
pub fn run_command(command: &mut Command, input: &[u8]) -> Run {
    command.stdin(Stdio::piped()).stdout(Stdio::piped()).stderr(Stdio::piped());
    let mut child = command.spawn().unwrap();
    let mut stdin = child.stdin.take().unwrap();
    let input = input.to_vec();
    // The command may end before it has read everything.
    let writer = std::thread::spawn(move || drop(stdin.write_all(&input)));
    let output = child.wait_with_output().unwrap();
    writer.join().unwrap();
    Run {
        status: output.status.code().expect("no signal ends it"),
        out: String::from_utf8(output.stdout).expect("it prints UTF-8"),
        err: String::from_utf8(output.stderr).expect("it prints UTF-8"),
    }
}

/// Runs the command with these arguments and this standard input.
pub fn run_with(args: &[&str], input: &[u8]) -> Run {
    run_command(command().args(args), input)
}

/// Runs the command with these arguments.
pub fn run(args: &[&str]) -> Run {
    run_with(args, b"")
}
