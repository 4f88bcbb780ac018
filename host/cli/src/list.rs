//! `luffinarc tokens` and `luffinarc hashtags`: what a text is cut into.

use crate::arguments::{flag, Arguments, Known};
use crate::console::{Console, Stop};
use crate::input::{self, Input};
use crate::place::{Place, Places};
use crate::refusal::Report;
use crate::text;
use luffinarc::{Image, Kind, Refusal, HASHTAG_KIND};
use std::io::{self, Write};
use std::ops::Range;

pub const OPTIONS: &[Known] = &[flag("--records"), flag("--json")];

/// A token or a hashtag.
struct Item {
    kind: u32,
    range: Range<usize>,
    line: u32,
}

/// The name of a kind as it is printed.
pub fn kind_name(number: u32) -> &'static str {
    match Kind::from_number(number) {
        Some(Kind::Identifier) => "identifier",
        Some(Kind::Syntax) => "syntax",
        Some(Kind::Blank) => "blank",
        Some(Kind::LineEnd) => "lineend",
        Some(Kind::Mark) => "mark",
        _ => "hashtag",
    }
}

fn tokens_of(image: &Image, text: &[u8]) -> Result<Vec<Item>, Refusal> {
    let item = |t: luffinarc::Token| Item { kind: t.kind.number(), range: t.range, line: t.line };
    Ok(image.tokens(text)?.map(item).collect())
}

fn hashtags_of(image: &Image, text: &[u8]) -> Result<Vec<Item>, Refusal> {
    let item = |t: luffinarc::Hashtag| Item { kind: HASHTAG_KIND, range: t.range, line: t.line };
    Ok(image.hashtags(text)?.into_iter().map(item).collect())
}

/// How items are printed.
enum Form {
    Lines,
    Records,
    Json,
}

impl Form {
    fn read(arguments: &Arguments) -> Result<Form, String> {
        match (arguments.has("--records"), arguments.has("--json")) {
            (false, false) => Ok(Form::Lines),
            (true, false) => Ok(Form::Records),
            (false, true) => Ok(Form::Json),
            (true, true) => Err("--records and --json exclude each other".to_string()),
        }
    }

    /// Prints an item of a text. `prefix` is the file's name and a colon where several are read.
    fn print(
        &self,
        out: &mut impl Write,
        (file, prefix): (&str, &str),
        item: &Item,
        part: &str,
        place: Place,
    ) -> io::Result<()> {
        let (kind, start, end) = (kind_name(item.kind), item.range.start, item.range.end);
        let Place { line, column } = place;
        match self {
            Form::Lines => writeln!(out, "{prefix}{line}:{column} {kind} {}", text::one_line(part)),
            Form::Records => writeln!(out, "{prefix}{} {start} {end} {}", item.kind, item.line),
            Form::Json => {
                let fields = [
                    ("file", text::json(file)),
                    ("line", line.to_string()),
                    ("column", column.to_string()),
                    ("kind", text::json(kind)),
                    ("start", start.to_string()),
                    ("end", end.to_string()),
                    ("text", text::json(part)),
                ];
                writeln!(out, "{}", text::object(&fields))
            }
        }
    }
}

/// Prints the items of a text.
fn print_all(
    console: &mut Console,
    form: &Form,
    input: &Input,
    prefix: &str,
    items: &[Item],
) -> Result<(), Stop> {
    let text = crate::place::well_formed_front(&input.bytes);
    let mut places = Places::new(text);
    for item in items {
        let place = places.of(item.range.start);
        let part = &text[item.range.clone()];
        form.print(&mut console.out, (&input.name, prefix), item, part, place)?;
    }
    Ok(())
}

/// Lists the items of each text; what is refused is told, and the next text is read.
fn run(
    name: &str,
    find: fn(&Image, &[u8]) -> Result<Vec<Item>, Refusal>,
    mut arguments: Arguments,
    console: &mut Console,
) -> Result<(), Stop> {
    let wrong = |message: String| crate::wrong(name, &message);
    let form = Form::read(&arguments).map_err(wrong)?;
    let image_name = arguments.take("the image's name").map_err(wrong)?;
    let files = input::or_stdin(arguments.rest());
    input::read_once(&image_name, &files).map_err(wrong)?;
    let input = input::read_image(&image_name)?;
    let image = crate::check::accepted(&input, console)?;
    for file in &files {
        let input = match input::read_text(file) {
            Ok(input) => input,
            Err(message) => {
                console.fail(&message)?;
                continue;
            }
        };
        let prefix = if files.len() > 1 { format!("{}:", input.shown()) } else { String::new() };
        match find(&image, &input.bytes) {
            Ok(items) => print_all(console, &form, &input, &prefix, &items)?,
            Err(refusal) => {
                let report = Report::of_text(refusal, &input, &image);
                if matches!(form, Form::Json) {
                    writeln!(console.out, "{}", report.json())?;
                }
                console.refuse(&report.shown(console.error_paint))?;
            }
        }
    }
    Ok(())
}

pub fn tokens(arguments: Arguments, console: &mut Console) -> Result<(), Stop> {
    run("tokens", tokens_of, arguments, console)
}

pub fn hashtags(arguments: Arguments, console: &mut Console) -> Result<(), Stop> {
    run("hashtags", hashtags_of, arguments, console)
}
