//! `luffinarc check`: whether an image and texts are accepted.

use crate::arguments::Arguments;
use crate::console::{Console, Stop, Style};
use crate::input::{self, Input};
use crate::refusal::Report;
use crate::text::counted;
use luffinarc::Image;
use std::io::Write;

/// The image of a file, or the refusal told.
pub fn accepted<'a>(input: &'a Input, console: &mut Console) -> Result<Image<'a>, Stop> {
    match Image::check(&input.bytes) {
        Ok(image) => Ok(image),
        Err(refusal) => {
            let report = Report::of_image(refusal, input);
            console.refuse(&report.shown(console.error_paint))?;
            Err(Stop::Refused)
        }
    }
}

/// Version, ranges and profile of an image in a few words.
pub fn in_words(image: &Image) -> String {
    let ranges = counted(image.ranges().len(), "range", "ranges");
    let profile = match image.profile().entries().count() {
        0 => "no profile".to_string(),
        n => format!("a profile of {}", counted(n, "entry", "entries")),
    };
    format!("Unicode {}, {ranges}, {profile}", image.version())
}

/// Checks a text, and tells whether it is accepted.
fn check_text(image: &Image, input: &Input, console: &mut Console) -> Result<(), Stop> {
    let name = input.shown();
    match image.count(&input.bytes) {
        Ok(count) => {
            let yes = console.paint.with(Style::Green, "accepted");
            Ok(writeln!(console.out, "{name}: {yes}, {}", counted(count, "token", "tokens"))?)
        }
        Err(refusal) => {
            let report = Report::of_text(refusal, input, image);
            let (no, number) = (console.paint.with(Style::Red, "refused"), refusal.number());
            match report.place() {
                Some(place) => writeln!(
                    console.out,
                    "{name}: {no} ({number}) at {}:{}",
                    place.line, place.column
                )?,
                None => writeln!(console.out, "{name}: {no} ({number})")?,
            }
            console.refuse(&report.shown(console.error_paint))
        }
    }
}

pub fn run(mut arguments: Arguments, console: &mut Console) -> Result<(), Stop> {
    let wrong = |message: String| crate::wrong("check", &message);
    let name = arguments.take("the image's name").map_err(wrong)?;
    let files = arguments.rest();
    input::read_once(&name, &files).map_err(wrong)?;
    let input = input::read_image(&name)?;
    if let Err(refusal) = Image::check(&input.bytes) {
        let (no, number) = (console.paint.with(Style::Red, "refused"), refusal.number());
        writeln!(console.out, "{}: {no} ({number})", input.shown())?;
    }
    let image = accepted(&input, console)?;
    let yes = console.paint.with(Style::Green, "accepted");
    writeln!(console.out, "{}: {yes}, {}", input.shown(), in_words(&image))?;
    for file in files {
        match input::read_text(&file) {
            Ok(text) => check_text(&image, &text, console)?,
            Err(message) => console.fail(&message)?,
        }
    }
    Ok(())
}
