//! An independent reader of class images, tokens and hashtags, written from
//! docs/RULES.md alone. It is a witness for comparison: simple, not fast.

#![forbid(unsafe_code)]

pub mod calls;
pub mod cases;
pub mod changes;
pub mod hashtag;
pub mod image;
pub mod line;
pub mod lister;
pub mod names;
pub mod record;
pub mod refusal;
pub mod token;
pub mod utf8;
pub mod vectors;

pub use calls::{Calls, Reader};
pub use changes::changes;
pub use hashtag::hashtags;
pub use image::{check, lookup, pair, read, write, Checked, Profile, Read};
pub use lister::{change_lister, lister};
pub use names::{class, kind, role};
pub use refusal::{PairRefusal, Refusal};
pub use token::{at, count, list, part, Token};
