//! The one call of the proved image writer.

use luffinarc::{Profile, Range, Refusal, Role, Version, MAX_RANGES};

/// Says what a refusal of the writer means here.
fn explain(refusal: Refusal, ranges: usize) -> String {
    let what = match refusal {
        Refusal::Header => format!("{ranges} ranges, at most {MAX_RANGES}"),
        _ => refusal.to_string(),
    };
    format!("the writer answers {}: {what}", refusal.number())
}

/// The image of a version, ranges and a profile.
pub fn write_image(
    version: Version,
    ranges: &[Range],
    profile: &[(u32, Role)],
) -> Result<Vec<u8>, String> {
    luffinarc::write_image(version, ranges, &Profile::new(profile))
        .map_err(|refusal| explain(refusal, ranges.len()))
}
