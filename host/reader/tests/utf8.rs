//! The UTF-8 layer against the standard library.

use luffinarc_reader::utf8::{decode, first, is_scalar, maximal_subpart};

#[test]
fn every_scalar_value() {
    for number in 0..=0x110000u32 {
        let c = char::from_u32(number);
        assert_eq!(is_scalar(number), c.is_some());
        if let Some(c) = c {
            let mut buffer = [0; 4];
            let bytes = c.encode_utf8(&mut buffer).as_bytes();
            assert_eq!(first(bytes), Some((number, bytes.len())));
        }
    }
}

/// The first ill-formed place and the length of the maximal subpart there, or the text's end and 0.
fn first_fault(text: &[u8]) -> (usize, usize) {
    match std::str::from_utf8(text) {
        Ok(_) => (text.len(), 0),
        Err(error) => {
            let place = error.valid_up_to();
            (place, error.error_len().unwrap_or(text.len() - place))
        }
    }
}

#[test]
fn first_ill_formed_place() {
    let edges = [0x00, 0x7F, 0x80, 0x8F, 0x90, 0x9F, 0xA0, 0xBF, 0xC0, 0xFF];
    for front in 0..=0xFFFFu16 {
        let [a, b] = front.to_be_bytes();
        for c in edges {
            for d in edges {
                let text = [a, b, c, d];
                let (place, length) = first_fault(&text);
                assert_eq!(decode(&text).1, place, "{text:02X?}");
                if place < text.len() {
                    assert_eq!(maximal_subpart(&text[place..]), length, "{text:02X?}");
                }
            }
        }
    }
}

#[test]
fn maximal_subparts() {
    let subparts: [(&[u8], usize); 12] = [
        (&[0xF0, 0x9F, 0x98], 3),
        (&[0xF0, 0x9F, 0x98, 0x41], 3),
        (&[0xE2, 0x82], 2),
        (&[0xE1, 0x80, 0xE1], 2),
        (&[0xC3], 1),
        (&[0xC0, 0x80], 1),
        (&[0xE0, 0x80, 0x80], 1),
        (&[0xED, 0xA0, 0x80], 1),
        (&[0xF4, 0x90, 0x80, 0x80], 1),
        (&[0xF0, 0x8F], 1),
        (&[0xFF], 1),
        (&[0x80], 1),
    ];
    for (bytes, length) in subparts {
        assert_eq!(first(bytes), None, "{bytes:02X?}");
        assert_eq!(maximal_subpart(bytes), length, "{bytes:02X?}");
    }
}
