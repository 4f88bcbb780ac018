//! The values of General_Category.

use crate::text::shown;

const CATEGORIES: &str = "Lu Ll Lt Lm Lo Mn Mc Me Nd Nl No Pc Pd Ps Pe Pi Pf Po \
                          Sm Sc Sk So Zs Zl Zp Cc Cf Cs Co Cn";

/// A value of General_Category by its short name.
pub fn category(value: &str) -> Result<&'static str, String> {
    let found = CATEGORIES.split(' ').find(|&category| category == value);
    found.ok_or_else(|| format!("{} is no General_Category", shown(value)))
}
