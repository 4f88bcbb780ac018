//! The token lister and the change lister, run as programs.

use std::io::Write;
use std::path::Path;
use std::process::{Command, Stdio};

/// What the program with this name writes for an input.
pub fn run(name: &str, input: &[u8]) -> String {
    let program = Path::new(env!("CARGO_MANIFEST_DIR")).join("../../target/bin").join(name);
    assert!(program.exists(), "{}: not there; `host/programs` makes it", program.display());
    let mut child = Command::new(program)
        .stdin(Stdio::piped())
        .stdout(Stdio::piped())
        .spawn()
        .expect("the program runs");
    let (mut stdin, input) = (child.stdin.take().unwrap(), input.to_vec());
    // The program may end before it has read all, so that a write fails.
    let writer = std::thread::spawn(move || drop(stdin.write_all(&input)));
    let output = child.wait_with_output().unwrap();
    writer.join().unwrap();
    assert!(output.status.success(), "{output:?}");
    String::from_utf8(output.stdout).unwrap()
}
