//! Each allocation of the writer fails in turn, and each time the answer says so.
use porchsorrel_wkb::reader::read_wkb;
use porchsorrel_wkb::writer::WriteOptions;
use porchsorrel_wkb_geo::{to_vec, Geometry};

#[path = "../../tests/shared/failing.rs"]
mod failing;

#[test]
fn each_allocation_fails() {
    // A collection of a multi polygon of one polygon of one ring of two coordinates.
    let mut input = b"\x01\x07\0\0\0\x01\0\0\0\x01\x06\0\0\0\x01\0\0\0\x01\x03\0\0\0\x01\0\0\0\x02\0\0\0".to_vec();
    input.extend([0; 32]);
    let wkb = read_wkb(&input).unwrap();
    let written = || to_vec(&Geometry::from(&wkb), &WriteOptions::default());
    assert_eq!(written().unwrap(), input);
    // The collection's head twice, words, rings, singles, and the rest.
    assert!(failing::tried(written) >= 9);
}
