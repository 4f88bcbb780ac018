//! `luffinarc make`: an image from the files of the Unicode Character Database.

use crate::arguments::{valued, Arguments, Known};
use crate::check::in_words;
use crate::console::{Console, Stop};
use crate::input::is_file_name;
use crate::text::visible;
use luffinarc::{Image, Version};
use luffinarc_maker::{check_out, make, Options};
use std::ffi::OsStr;

pub const OPTIONS: &[Known] =
    &[valued("--version"), valued("--folder"), valued("--profile"), valued("--out")];

/// The value of an option that must be given.
fn needed<'a>(arguments: &'a Arguments, name: &str) -> Result<&'a OsStr, Stop> {
    arguments.value(name).ok_or_else(|| crate::wrong("make", &format!("{name} is missing")))
}

fn version(value: &OsStr) -> Result<Version, Stop> {
    let shown = value.to_string_lossy();
    let parsed = shown.parse::<Version>();
    parsed.map_err(|error| crate::wrong("make", &format!("--version {shown}: {error}")))
}

pub fn run(mut arguments: Arguments, console: &mut Console) -> Result<(), Stop> {
    use std::io::Write;
    arguments.end().map_err(|message| crate::wrong("make", &message))?;
    let options = Options {
        version: version(needed(&arguments, "--version")?)?,
        folder: needed(&arguments, "--folder")?.into(),
        profile: arguments.value("--profile").map(Into::into),
        out: needed(&arguments, "--out")?.into(),
    };
    for name in ["--folder", "--profile", "--out"] {
        let given = arguments.value(name).map_or(Ok(()), |value| is_file_name(name, value));
        given.map_err(|message| crate::wrong("make", &message))?;
    }
    check_out(&options).map_err(|m| crate::wrong("make", &format!("--out: {m}")))?;
    let bytes = make(&options)?;
    let out = visible(&options.out.to_string_lossy());
    let image = Image::check(&bytes).map_err(|refusal| format!("{out}: {refusal}"))?;
    Ok(writeln!(console.out, "{out}: {}", in_words(&image))?)
}
