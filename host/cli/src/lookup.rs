//! `luffinarc lookup`: the class of characters.

use crate::advice::role_of;
use crate::arguments::Arguments;
use crate::console::{Console, Stop};
use crate::input;
use crate::refusal::{named, Report};
use luffinarc::Image;
use std::ffi::OsString;
use std::io::Write;

/// The numbers that an argument names: U+HEX one, any other text each of its characters.
fn numbers(argument: &OsString) -> Result<Vec<u32>, String> {
    let shown = argument.to_str().ok_or(format!("{}: not UTF-8", argument.to_string_lossy()))?;
    let digits = shown.strip_prefix("U+").or_else(|| shown.strip_prefix("u+"));
    match digits {
        Some(digits) => {
            let is_hex = digits.bytes().all(|byte| byte.is_ascii_hexdigit());
            let number = u32::from_str_radix(digits, 16).ok().filter(|_| is_hex);
            Ok(vec![number.ok_or(format!("{shown}: not U+ and a hexadecimal number of 32 bits"))?])
        }
        _ if shown.is_empty() => Err("an empty argument names no character".to_string()),
        _ => Ok(shown.chars().map(u32::from).collect()),
    }
}

/// Prints the class of a number, and how the profile made it.
fn print(image: &Image, number: u32, console: &mut Console) -> Result<(), Stop> {
    match image.lookup(number) {
        Ok(found) => {
            let role = role_of(image, number);
            let by = role.map_or(String::new(), |role| format!(", role {role} in the profile"));
            Ok(writeln!(console.out, "{} {}{by}", named(number), found.class)?)
        }
        Err(refusal) => {
            let note = "scalar values are 0 to D7FF and E000 to 10FFFF".to_string();
            let report = Report::plain(refusal, &named(number), note);
            console.refuse(&report.shown(console.error_paint))
        }
    }
}

pub fn run(mut arguments: Arguments, console: &mut Console) -> Result<(), Stop> {
    let wrong = |message: String| crate::wrong("lookup", &message);
    let name = arguments.take("the image's name").map_err(wrong)?;
    let asked = arguments.rest();
    if asked.is_empty() {
        return Err(wrong("a character or U+HEX is missing".to_string()));
    }
    let all = asked.iter().map(numbers).collect::<Result<Vec<_>, _>>().map_err(wrong)?;
    let input = input::read_image(&name)?;
    let image = crate::check::accepted(&input, console)?;
    all.into_iter().flatten().try_for_each(|number| print(&image, number, console))
}
