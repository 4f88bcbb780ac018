//! The README's examples of the command print what the README says.

use std::path::Path;
use std::process::Command;

const ROOT: &str = concat!(env!("CARGO_MANIFEST_DIR"), "/../..");

/// The blocks of a text that are indented by four blanks, each as its lines.
fn blocks(text: &str) -> Vec<Vec<&str>> {
    let mut blocks: Vec<Vec<&str>> = vec![vec![]];
    for line in text.lines() {
        match line.strip_prefix("    ") {
            Some(code) => blocks.last_mut().unwrap().push(code),
            // A blank line parts blocks only where another line than code follows.
            None if line.is_empty() => blocks.last_mut().unwrap().push(""),
            None => blocks.push(vec![]),
        }
    }
    for block in &mut blocks {
        while block.last() == Some(&"") {
            block.pop();
        }
        let lead = block.iter().take_while(|line| line.is_empty()).count();
        block.drain(..lead);
    }
    blocks.retain(|block| !block.is_empty());
    blocks
}

/// What a shell prints of a command, in the repository's folder.
fn printed(command: &str) -> String {
    let folder = Path::new(env!("CARGO_BIN_EXE_luffinarc")).parent().unwrap();
    let path = format!("{}:{}", folder.display(), std::env::var("PATH").unwrap());
    let command = format!("{{ {command}; }} 2>&1");
    let mut shell = Command::new("sh");
    let output = shell.args(["-c", &command]).current_dir(ROOT).env("PATH", path).output().unwrap();
    String::from_utf8(output.stdout).unwrap()
}

/// Whether lines are as they are expected; `..` stands for any number of them.
fn agree(expected: &[&str], lines: &[&str]) -> bool {
    match expected.split_first() {
        None => lines.is_empty(),
        Some((&"..", rest)) => (0..=lines.len()).any(|skipped| agree(rest, &lines[skipped..])),
        Some((first, rest)) => lines.first() == Some(first) && agree(rest, &lines[1..]),
    }
}

#[test]
fn examples() {
    let readme = std::fs::read_to_string(format!("{ROOT}/README.md")).unwrap();
    let start = readme.find("## At the bench").expect("the section is there");
    let end = start + readme[start..].find("\n### ").expect("a section follows");
    let blocks = blocks(&readme[start..end]);
    let is_command = |block: &Vec<&str>| block.len() == 1 && block[0].contains("luffinarc ");
    let commands: Vec<usize> = (0..blocks.len()).filter(|&i| is_command(&blocks[i])).collect();
    assert_eq!(commands.len(), 3);
    for i in commands {
        let (command, expected) = (blocks[i][0], &blocks[i + 1]);
        let printed = printed(command);
        let lines: Vec<&str> = printed.lines().collect();
        assert!(agree(expected, &lines), "{command} prints\n{printed}");
    }
}
