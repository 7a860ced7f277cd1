//! What clients return: all coordinates of a geometry as one multi point, GeoPackage's blobs, and rows in a box.

use crate::rt::Fail;
use crate::wkb::check::Range;
use crate::wkb::Endianness;
use crate::wkb_cases::reading;
use crate::wkb_cases::spelled::bytes;
use crate::wkb_cases::support::{iso, THREE, TWO};
use crate::wkb_clients::boxes::BoundingBox;
use crate::wkb_clients::coordinates::as_multi_point;
use crate::wkb_clients::geopackage::{read, write, Unread};
use crate::wkb_clients::windows::found_in;

/// A multi point of 1.0 and 2.0, and one without a point.
const ONE: &str = "01 04000000 01000000 01 01000000 P";
const NONE: &str = "01 04000000 00000000";

/// Geometries, and their multi points, little endian in ISO codes; an empty text where there is none. They are a point
/// and an empty one; lines of which the second has its words in the other order; a polygon with a hole; two points, of
/// which one is empty, and two polygons, of which one has no ring. A collection of a point with z, and in it one of a
/// line whose first coordinate is NaNs: their words are kept; an empty point in it has no coordinate. Collections
/// without members. A collection of x and y that has a point with z, one whose inner collection has z, though nothing
/// is in it, and one of z that has a point with m.
const POINTS: [(&str, &str); 12] = [
    ("01 01000000 P", ONE),
    ("00 00000001 7ff8000000000000 fff8000000000001", NONE),
    ("01 02000000 00000000", NONE),
    (
        "01 05000000 02000000 01 02000000 01000000 P 00 00000002 00000001 4000000000000000 3ff0000000000000",
        "01 04000000 02000000 01 01000000 P 01 01000000 0000000000000040 000000000000f03f",
    ),
    (
        "01 03000000 02000000 01000000 0000000000000040 0000000000000040 01000000 P",
        "01 04000000 02000000 01 01000000 0000000000000040 0000000000000040 01 01000000 P",
    ),
    ("01 04000000 02000000 01 01000000 000000000000f87f 000000000000f87f 01 01000000 P", ONE),
    ("01 06000000 02000000 01 03000000 00000000 01 03000000 01000000 01000000 P", ONE),
    (
        "01 ef030000 02000000 01 e9030000 P 0000000000000840 00 000003ef 00000002
        00 000003ea 00000002 7ff8000000000000 fff8000000000001 7ff800000000000a
        0000000000000003 0000000000000002 0000000000000001
        00 000003e9 7ff8000000000000 7ff8000000000000 7ff8000000000000",
        "01 ec030000 03000000 01 e9030000 P 0000000000000840
        01 e9030000 000000000000f87f 010000000000f8ff 0a0000000000f87f
        01 e9030000 0300000000000000 0200000000000000 0100000000000000",
    ),
    ("01 07000000 01000000 01 07000000 00000000", NONE),
    ("01 07000000 01000000 01 e9030000 P 0000000000000840", ""),
    ("01 07000000 02000000 01 01000000 P 01 ef030000 00000000", ""),
    ("01 ef030000 01000000 01 d1070000 P 0000000000000840", ""),
];

#[test]
fn all_coordinates() -> Result<(), Fail> {
    for (text, points) in POINTS {
        let input = bytes(text)?;
        let found = as_multi_point(&reading::read(input.as_slice())?, &iso(Endianness::LittleEndian))?;
        assert_eq!(found.unwrap_or_default().as_slice(), bytes(points)?.as_slice(), "{text}");
    }
    Ok(())
}

/// Twenty for a fault of the header, 30 for one of the envelope, 40 for one of the geometry, 50 for EWKB; else the
/// envelope's kind, and ten more where the header is big endian.
fn outcome(blob: &[u8]) -> u8 {
    match read(blob) {
        Ok(it) if it.header.order == Endianness::LittleEndian => it.header.envelope,
        Ok(it) => 10 + it.header.envelope,
        Err(Unread::Header) => 20,
        Err(Unread::Envelope) => 30,
        Err(Unread::Geometry(_)) => 40,
        Err(Unread::Ewkb) => 50,
    }
}

/// Headers and envelopes, a geometry behind them, and what is returned: an envelope from (1 2) to (1 2), none, and one
/// whose z nothing is said of; NaNs around an empty point and an empty polygon; another letter; an envelope from x 2
/// on, one of a NaN, one of zeros around an empty geometry; EWKB with an SRID; and a geometry without its last byte.
const BLOBS: [(&str, &str, u8); 11] = [
    ("47500003 e6100000 000000000000f03f 000000000000f03f 0000000000000040 0000000000000040", "01 01000000 P", 1),
    ("47500000 000010e6", "01 01000000 P", 10),
    (
        "47500005 e6100000 000000000000f0bf 000000000000f03f 0000000000000040 0000000000000840
        0000000000000000 0000000000000000",
        "01 01000000 P",
        2,
    ),
    (OF_NANS, "01 01000000 000000000000f87f 000000000000f87f", 1),
    (OF_NANS, "01 03000000 00000000", 1),
    ("47510001 e6100000", "01 01000000 P", 20),
    ("47500003 e6100000 0000000000000040 0000000000000840 0000000000000040 0000000000000040", "01 01000000 P", 30),
    ("47500003 e6100000 000000000000f87f 000000000000f03f 0000000000000040 0000000000000040", "01 01000000 P", 30),
    (
        "47500013 e6100000 0000000000000000 0000000000000000 0000000000000000 0000000000000000",
        "01 03000000 00000000",
        30,
    ),
    ("47500001 e6100000", "01 01000020 e6100000 P", 50),
    ("47500001 e6100000", "01 01000000 000000000000f03f 00000000000000", 40),
];
const OF_NANS: &str = "47500013 e6100000 000000000000f87f 000000000000f87f 000000000000f87f 000000000000f87f";

// What is read is written again where it has no envelope, or one of NaNs.
#[test]
fn packages() -> Result<(), Fail> {
    for (header, geometry, expected) in BLOBS {
        let mut blob = bytes(header)?;
        blob.spell(geometry)?;
        assert_eq!(outcome(blob.as_slice()), expected, "{header} {geometry}");
        if expected == 10 || geometry.starts_with("01 03") && expected == 1 {
            let package = read(blob.as_slice()).ok().expect("not read");
            assert_eq!(write(&package)?.unwrap().as_slice(), blob.as_slice());
        }
    }
    Ok(())
}

// The box from (2 2) to (3 3): the line from (1 1) to (3 3) meets it, and so does a point on its corner, (2 2); not the
// point (1 2), nor bytes that begin with no geometry. An empty polygon meets no box, not that of all numbers either.
#[test]
fn rows_in_a_box() -> Result<(), Fail> {
    let line = bytes("01 02000000 02000000 000000000000f03f 000000000000f03f 0000000000000840 0000000000000840")?;
    let (corner, outside) = (bytes("00 00000001 4000000000000000 4000000000000000")?, bytes("01 01000000 P")?);
    let of = |least, greatest| {
        let side = Range { least, greatest, count: 2 };
        BoundingBox { x: side, y: side }
    };
    let rows = [outside.as_slice(), line.as_slice(), &[], corner.as_slice()];
    assert_eq!(found_in(&of(TWO, THREE), &rows)?.as_slice(), [line.as_slice(), corner.as_slice()]);
    let empty = bytes("01 03000000 00000000")?;
    assert!(found_in(&of(0xfff0000000000000, 0x7ff0000000000000), &[empty.as_slice()])?.is_empty());
    Ok(())
}
