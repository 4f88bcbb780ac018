//! What the command prints, and how it ends: answers on standard output, messages on standard error.

use crate::streams::Output;
use crate::text::visible;
use luffinarc_maker::plain;
use std::fmt::{self, Display};
use std::io::{self, BufWriter, ErrorKind, Write};

/// The exit status. The worst of a run counts.
#[derive(Clone, Copy, Debug, PartialEq, Eq, PartialOrd, Ord)]
pub enum Status {
    /// Everything was accepted.
    Accepted = 0,
    /// A text, an image, a pair of images or a number was refused.
    Refused = 1,
    /// Wrong use, an unreadable file or a failed write.
    Failed = 2,
}

/// Why the command stops before it is done.
#[derive(Debug)]
pub enum Stop {
    /// Wrong use or a file that cannot be read or written: one line that says it.
    Failed(String),
    /// The image that the command works with is refused, and this has been told.
    Refused,
    /// Nobody reads the output any more, as where `head` has enough.
    Closed,
}

impl From<String> for Stop {
    fn from(message: String) -> Stop {
        Stop::Failed(message)
    }
}

impl From<io::Error> for Stop {
    /// A failed write on standard output.
    fn from(error: io::Error) -> Stop {
        match error.kind() {
            ErrorKind::BrokenPipe => Stop::Closed,
            _ => Stop::Failed(format!("standard output: {}", plain(&error))),
        }
    }
}

/// When output has colours.
#[derive(Clone, Copy, Debug, PartialEq, Eq)]
pub enum When {
    Auto,
    Always,
    Never,
}

/// The styles of a terminal.
#[derive(Clone, Copy, Debug, PartialEq, Eq)]
pub enum Style {
    Bold,
    Red,
    Green,
    Blue,
}

impl Style {
    fn code(self) -> &'static str {
        match self {
            Style::Bold => "1",
            Style::Red => "1;31",
            Style::Green => "1;32",
            Style::Blue => "1;34",
        }
    }
}

/// A text with a style, or plain where there are no colours.
pub struct Painted<T> {
    text: T,
    style: Option<Style>,
}

impl<T: Display> Display for Painted<T> {
    fn fmt(&self, f: &mut fmt::Formatter<'_>) -> fmt::Result {
        match self.style {
            Some(style) => write!(f, "\x1b[{}m{}\x1b[0m", style.code(), self.text),
            None => self.text.fmt(f),
        }
    }
}

/// Styles texts where there are colours.
#[derive(Clone, Copy, Debug)]
pub struct Paint {
    on: bool,
}

impl Paint {
    pub fn with<T: Display>(self, style: Style, text: T) -> Painted<T> {
        Painted { text, style: self.on.then_some(style) }
    }
}

extern "C" {
    /// Of the C library, which Rust's links: whether an open file is a terminal.
    fn isatty(file: i32) -> i32;
}

/// Whether there are colours on standard output (1) or standard error (2).
fn coloured(when: When, file: i32) -> bool {
    let variable = |name| std::env::var_os(name).filter(|value| !value.is_empty());
    match when {
        When::Always => true,
        When::Never => false,
        When::Auto if variable("NO_COLOR").is_some() => false,
        When::Auto if variable("TERM").map_or(true, |term| term == "dumb") => false,
        // Safety: isatty takes any number.
        When::Auto => unsafe { isatty(file) == 1 },
    }
}

/// Standard output and standard error, and the status so far.
pub struct Console {
    /// Standard output.
    pub out: BufWriter<Output>,
    /// Styles for standard output.
    pub paint: Paint,
    /// Styles for standard error.
    pub error_paint: Paint,
    status: Status,
}

impl Console {
    pub fn new(when: When) -> Console {
        Console {
            out: BufWriter::new(Output::new()),
            paint: Paint { on: coloured(when, 1) },
            error_paint: Paint { on: coloured(when, 2) },
            status: Status::Accepted,
        }
    }

    fn worsen(&mut self, status: Status) {
        self.status = self.status.max(status);
    }

    /// Prints a text on standard error, after what was printed on standard output. Nothing can be told where standard
    /// error fails.
    fn tell(&mut self, text: &str) -> Result<(), Stop> {
        self.out.flush()?;
        let _ = io::stderr().write_all(text.as_bytes());
        Ok(())
    }

    /// Tells a refusal.
    pub fn refuse(&mut self, text: &str) -> Result<(), Stop> {
        self.worsen(Status::Refused);
        self.tell(text)
    }

    /// Sets the status of a refusal that was told on standard output.
    pub fn refused(&mut self) {
        self.worsen(Status::Refused);
    }

    /// The line that tells what failed, whatever names are in it.
    fn failure(&self, message: &str) -> String {
        let name = self.error_paint.with(Style::Bold, "luffinarc");
        format!("{name}: {}\n", visible(message))
    }

    /// Tells in one line what failed; the command goes on.
    pub fn fail(&mut self, message: &str) -> Result<(), Stop> {
        self.worsen(Status::Failed);
        let line = self.failure(message);
        self.tell(&line)
    }

    /// Ends: what was printed is written out, and why the command stopped is told.
    pub fn end(mut self, result: Result<(), Stop>) -> Status {
        match result.and_then(|()| Ok(self.out.flush()?)) {
            Ok(()) => {}
            Err(Stop::Refused) => {
                self.worsen(Status::Refused);
                if let Err(Stop::Failed(message)) = self.out.flush().map_err(Stop::from) {
                    self.last_line(&message);
                }
            }
            Err(Stop::Failed(message)) => self.last_line(&message),
            Err(Stop::Closed) => self.worsen(Status::Failed),
        }
        self.status
    }

    /// Tells what failed at the end, whatever standard output does.
    fn last_line(&mut self, message: &str) {
        self.worsen(Status::Failed);
        let _ = self.out.flush();
        let _ = io::stderr().write_all(self.failure(message).as_bytes());
    }
}
