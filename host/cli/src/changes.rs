//! `luffinarc changes`: what changed between two images.

mod cells;
mod characters;
mod comparison;
mod json;
mod labels;
mod page;
mod picture;
mod plain;
mod summary;
mod table;

use crate::arguments::{flag, valued, Arguments, Known};
use crate::check::accepted;
use crate::console::{Console, Stop};
use crate::input::{self, Input};
use crate::text::visible;
use comparison::Comparison;
use luffinarc_maker::store;
use std::ffi::{OsStr, OsString};
use std::fs::canonicalize;
use std::io::Write;
use std::path::Path;

pub const OPTIONS: &[Known] = &[flag("--json"), valued("--html")];

/// The names on the command line.
struct Names {
    older: OsString,
    newer: OsString,
    page: Option<OsString>,
}

impl Names {
    fn read(arguments: &mut Arguments) -> Result<Names, String> {
        let older = arguments.take("the older image's name")?;
        let newer = arguments.take("the newer image's name")?;
        arguments.end()?;
        if older == "-" && newer == "-" {
            return Err("standard input can't be both images".to_string());
        }
        let page = arguments.value("--html").map(OsStr::to_os_string);
        page.as_deref().map_or(Ok(()), |page| input::is_file_name("--html", page))?;
        Ok(Names { older, newer, page })
    }

    /// The page doesn't take the place of an image.
    fn keep_images(&self) -> Result<(), String> {
        let place = |name: &OsStr| {
            let file = if name == "-" { OsStr::new("/dev/stdin") } else { name };
            canonicalize(file).ok()
        };
        let page = self.page.as_deref().and_then(|page| canonicalize(page).ok());
        let is_page = |name: &&OsString| page.is_some() && place(name) == page;
        match [&self.older, &self.newer].into_iter().find(is_page) {
            Some(name) => Err(format!("--html: {} is an image of the two", name.to_string_lossy())),
            None => Ok(()),
        }
    }
}

/// What changed between two files. Each image that is refused is told.
fn compare(older: &Input, newer: &Input, console: &mut Console) -> Result<Comparison, Stop> {
    let older_image = accepted(older, console);
    let newer_image = accepted(newer, console);
    let sides = [(older, older_image?), (newer, newer_image?)];
    Comparison::of(sides).map_err(|refusal| Stop::Failed(refusal.to_string()))
}

/// Stores the page.
fn store_page(name: &OsStr, comparison: &Comparison) -> Result<(), String> {
    store(Path::new(name), page::page(comparison).as_bytes())
}

pub fn run(mut arguments: Arguments, console: &mut Console) -> Result<(), Stop> {
    let wrong = |message: String| crate::wrong("changes", &message);
    let names = Names::read(&mut arguments).map_err(wrong)?;
    names.keep_images().map_err(wrong)?;
    let (older, newer) = (input::read_image(&names.older)?, input::read_image(&names.newer)?);
    let comparison = compare(&older, &newer, console)?;
    if comparison.refusal.is_some() {
        console.refused();
    }
    // Before anything is printed: where nobody reads on, the page is there.
    let stored = names.page.as_deref().map(|page| (page, store_page(page, &comparison)));
    let is_json = arguments.has("--json");
    if is_json {
        json::print(&comparison, &mut console.out)?;
    } else {
        plain::print(&comparison, console)?;
    }
    match stored {
        Some((_, Err(message))) => console.fail(&message),
        Some((page, Ok(()))) if !is_json => {
            Ok(writeln!(console.out, "page: {}", visible(&page.to_string_lossy()))?)
        }
        _ => Ok(()),
    }
}
