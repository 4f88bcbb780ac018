//! `luffinarc show`: what an image holds.

use crate::arguments::{flag, Arguments, Known};
use crate::console::{Console, Stop, Style};
use crate::input;
use crate::refusal::named;
use crate::text::{code_point, thousands};
use luffinarc::{Class, Image, Range};
use std::io::Write;

pub const OPTIONS: &[Known] = &[flag("--ranges")];

/// The classes that ranges have.
const CLASSES: [Class; 5] =
    [Class::Start, Class::Nonstart, Class::Syntax, Class::White, Class::Other];

/// Prints how many ranges and code points each class has.
fn print_classes(console: &mut Console, ranges: &[Range]) -> Result<(), Stop> {
    let head = format!("{:<10} {:>9} {:>12}", "class", "ranges", "code points");
    writeln!(console.out, "\n{}", console.paint.with(Style::Bold, head))?;
    for class in CLASSES {
        let of_class: Vec<_> = ranges.iter().filter(|range| range.class == class).collect();
        let points: usize = of_class.iter().map(|r| (r.last - r.first) as usize + 1).sum();
        let (count, points) = (thousands(of_class.len()), thousands(points));
        writeln!(console.out, "{class:<10} {count:>9} {points:>12}")?;
    }
    Ok(())
}

/// Prints the entries of the profile.
fn print_profile(console: &mut Console, image: &Image) -> Result<(), Stop> {
    let profile = image.profile();
    if profile.entries().next().is_some() {
        let head = format!("{:<10} {}", "role", "profile entry");
        writeln!(console.out, "\n{}", console.paint.with(Style::Bold, head))?;
    }
    for (point, role) in profile.entries() {
        writeln!(console.out, "{role:<10} {}", named(point))?;
    }
    Ok(())
}

/// Prints every range.
fn print_ranges(console: &mut Console, ranges: &[Range]) -> Result<(), Stop> {
    let head = format!("{:<10} {}", "class", "range");
    writeln!(console.out, "\n{}", console.paint.with(Style::Bold, head))?;
    for range in ranges {
        let (first, last) = (code_point(range.first), code_point(range.last));
        writeln!(console.out, "{:<10} {first} to {last}", range.class)?;
    }
    Ok(())
}

pub fn run(mut arguments: Arguments, console: &mut Console) -> Result<(), Stop> {
    let wrong = |message: String| crate::wrong("show", &message);
    let name = arguments.take("the image's name").map_err(wrong)?;
    arguments.end().map_err(wrong)?;
    let input = input::read_image(&name)?;
    let image = crate::check::accepted(&input, console)?;
    let ranges = image.ranges();
    writeln!(console.out, "{}: {}", input.shown(), crate::check::in_words(&image))?;
    print_classes(console, &ranges)?;
    print_profile(console, &image)?;
    if arguments.has("--ranges") {
        print_ranges(console, &ranges)?;
    }
    Ok(())
}
