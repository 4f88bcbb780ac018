//! Runs every case of the outside vectors against the library and the token lister.

use luffinarc_reader::vectors;
use luffinarc_tests::{data, Library};

#[test]
fn every_vector() {
    assert_eq!(vectors::run_all(&Library), 13);
}

/// The output that the C example is held to is the reader's.
#[test]
fn sample_of_the_c_example() {
    let folder = concat!(env!("CARGO_MANIFEST_DIR"), "/../c/");
    let text = std::fs::read(format!("{folder}sample.txt")).unwrap();
    let expected = std::fs::read_to_string(format!("{folder}sample.expected")).unwrap();
    let input = [data("images/unicode-16.0.img"), text].concat();
    assert_eq!(luffinarc_reader::lister(&input), expected);
}
