//! The command `luffinarc`: tokens, hashtags and class images at the bench.

mod advice;
mod appearance;
mod arguments;
mod changes;
mod check;
mod console;
mod damage;
mod help;
mod input;
mod list;
mod lookup;
mod make;
mod place;
mod refusal;
mod show;
mod source;
mod streams;
mod text;

use arguments::{Arguments, Known};
use console::{Console, Status, Stop};
use std::ffi::OsString;
use std::process::ExitCode;

/// A command: its name, the options that it knows, and what it does.
struct Command {
    name: &'static str,
    options: &'static [Known],
    run: fn(Arguments, &mut Console) -> Result<(), Stop>,
}

const COMMANDS: [Command; 7] = [
    Command { name: "tokens", options: list::OPTIONS, run: list::tokens },
    Command { name: "hashtags", options: list::OPTIONS, run: list::hashtags },
    Command { name: "check", options: &[], run: check::run },
    Command { name: "changes", options: changes::OPTIONS, run: changes::run },
    Command { name: "lookup", options: &[], run: lookup::run },
    Command { name: "show", options: show::OPTIONS, run: show::run },
    Command { name: "make", options: make::OPTIONS, run: make::run },
];

/// A line for wrong use, with the way to the help.
fn wrong(command: &str, message: &str) -> Stop {
    let of = if command.is_empty() { String::new() } else { format!("{command}: ") };
    let help = if command.is_empty() { "--help".to_string() } else { format!("help {command}") };
    Stop::Failed(format!("{of}{message} (`luffinarc {help}` shows the use)"))
}

/// Prints the help, of a command or of all.
fn help(name: Option<&str>, console: &mut Console) -> Result<(), Stop> {
    use std::io::Write;
    let no_command = || wrong("", &format!("{}: no such command", name.unwrap_or_default()));
    let text = help::text(name).ok_or_else(no_command)?;
    Ok(console.out.write_all(text.as_bytes())?)
}

/// Runs the command with this name.
fn run(name: &str, args: Vec<OsString>) -> Status {
    let command = match COMMANDS.iter().find(|command| command.name == name) {
        Some(command) => command,
        None => return global(name, args),
    };
    let read = Arguments::read(args, command.options).and_then(|args| Ok((args.when()?, args)));
    let (when, arguments) = match read {
        Ok(read) => read,
        Err(message) => {
            return Console::new(console::When::Auto).end(Err(wrong(name, &message)));
        }
    };
    let mut console = Console::new(when);
    let result = if arguments.has("--help") {
        help(Some(name), &mut console)
    } else {
        (command.run)(arguments, &mut console)
    };
    console.end(result)
}

/// What is no command: help, the version, or wrong use.
fn global(name: &str, args: Vec<OsString>) -> Status {
    use std::io::Write;
    let mut console = Console::new(console::When::Auto);
    let of = args.first().map(|arg| arg.to_string_lossy().into_owned());
    let result = match (name, args.len()) {
        ("help", 0 | 1) => help(of.as_deref(), &mut console),
        ("--help" | "-h", 0) => help(None, &mut console),
        ("--version" | "-V", 0) => {
            writeln!(console.out, "luffinarc {}", env!("CARGO_PKG_VERSION")).map_err(Stop::from)
        }
        ("help" | "--help" | "-h" | "--version" | "-V", _) => Err(wrong("", "one name too many")),
        _ => Err(wrong("", &format!("{name}: no such command"))),
    };
    console.end(result)
}

fn main() -> ExitCode {
    let mut args = std::env::args_os().skip(1);
    let status = match args.next() {
        Some(name) => run(&name.to_string_lossy(), args.collect()),
        None => Console::new(console::When::Auto).end(Err(wrong("", "no command is named"))),
    };
    ExitCode::from(status as u8)
}
