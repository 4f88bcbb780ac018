//! Runs every case of the outside vectors against the reader.

use luffinarc_reader::{vectors, Reader};

#[test]
fn every_vector() {
    assert_eq!(vectors::run_all(&Reader), 13);
}
