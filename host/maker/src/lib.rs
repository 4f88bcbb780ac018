//! Makes a class image from files of the Unicode Character Database.

mod assigned;
mod category;
mod classes;
mod output;
mod profile;
mod properties;
mod sources;
mod span;
mod text;
mod ucd;
mod unicode_data;
mod writer;

pub use output::store;
pub use profile::read_profile;
pub use sources::check_out;
pub use text::plain;

use luffinarc::Version;
use std::path::PathBuf;

/// What an image is made from, and where it goes.
pub struct Options {
    /// The version of Unicode.
    pub version: Version,
    /// The folder with the files of the database.
    pub folder: PathBuf,
    /// The file of the profile, if there is one.
    pub profile: Option<PathBuf>,
    /// The file of the image.
    pub out: PathBuf,
}

/// Makes an image and stores it, whole or not at all. Answers its bytes.
///
/// # Errors
///
/// What is wrong, in one line.
pub fn make(options: &Options) -> Result<Vec<u8>, String> {
    check_out(options)?;
    let profile = match &options.profile {
        Some(file) => read_profile(file)?,
        None => vec![],
    };
    let sets = ucd::read_folder(&options.folder, options.version)?;
    let ranges = classes::ranges(&sets).map_err(|why| text::of_file(&options.folder, why))?;
    let image = writer::write_image(options.version, &ranges, &profile)?;
    store(&options.out, &image)?;
    Ok(image)
}
