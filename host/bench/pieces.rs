//! Pieces of a text, to time readers by length: many, so that a branch predictor doesn't learn a single one. It may still
//! learn much of all of them, the more where they overlap, as those of a text that is shorter than all together.

use luffinarc::{Image, MAX_TEXT};

/// The bytes of all pieces together, or of one that is longer.
const TOGETHER: usize = 65536;

/// The lengths of the curve.
pub const LENGTHS: [usize; 10] = [16, 32, 64, 128, 300, 1024, 4096, 8192, 65536, MAX_TEXT];

/// Pieces of one length, one after the other. Each has a NUL after it, which re2c's reader asks for.
pub struct Pieces {
    bytes: Vec<u8>,
    len: usize,
}

impl Pieces {
    /// Pieces of so many bytes, from tokens all over the text on, as far apart as may be. They are cut at characters and
    /// filled with blanks. None where the text is shorter.
    pub fn new(image: &Image, text: &str, len: usize) -> Option<Pieces> {
        let tokens = image.tokens(text).expect("the text is accepted");
        let starts: Vec<usize> = tokens.map(|token| token.range.start).collect();
        // The tokens after which so many bytes are left: the first is one of them, or there is none.
        let fit = starts.partition_point(|start| start + len <= text.len());
        if fit == 0 {
            return None;
        }
        let mut bytes = Vec::new();
        let pieces = (TOGETHER / len).max(1);
        for i in 0..pieces {
            let start = starts[i * fit / pieces];
            let mut end = start + len;
            while !text.is_char_boundary(end) {
                end -= 1;
            }
            bytes.extend_from_slice(&text.as_bytes()[start..end]);
            bytes.extend((end..start + len).map(|_| b' '));
            bytes.push(0);
        }
        Some(Pieces { bytes, len })
    }

    /// The length of each.
    pub fn length(&self) -> usize {
        self.len
    }

    /// Each piece with the NUL after it.
    #[inline(always)]
    pub fn with_nul(&self) -> impl Iterator<Item = &[u8]> + '_ {
        self.bytes.chunks_exact(self.len + 1)
    }

    /// Each piece.
    #[inline(always)]
    pub fn iter(&self) -> impl Iterator<Item = &[u8]> + '_ {
        self.with_nul().map(move |piece| &piece[..self.len])
    }
}
