//! What is taken out of a geometry and used after that is dropped, and the calls on hex texts.

use crate::rt::Fail;
use crate::wkb::geom::*;
use crate::wkb::Endianness;
use crate::wkb_cases::reading::read;
use crate::wkb_cases::spelled::bytes;
use crate::wkb_cases::support::{ONE, TWO};
use crate::wkb_cases::texts::{MULTI_LINE_TWO, POLYGON_HOLE};
use crate::wkb_command::calls::{rewrite_hex_with_srid, same_hex, srid_hex};
use crate::writing::encoding_of;

/// The part that a view of this kind returns of a geometry, which is dropped then.
macro_rules! kept {
    ($kind:ident($view:ident) of $geometry:expr, $part:expr) => {
        match $geometry.as_type() {
            GeometryType::$kind($view) => $part,
            _ => None,
        }
    };
}

// The cases kept-parts, point-lifetime and line-lifetime. A ring is a geometry too: a line string.
#[test]
fn kept_parts() -> Result<(), Fail> {
    let input = bytes("01 01000000 P")?;
    let coord = kept!(Point(view) of read(input.as_slice())?, kept!(Point(again) of view, again.coord()));
    assert_eq!(coord.unwrap().x_y_words(), (ONE, TWO));
    let input = bytes("01 02000000 02000000 P P")?;
    let coord = kept!(LineString(view) of read(input.as_slice())?, view.coord(0));
    assert_eq!(coord.unwrap().x_y_words(), (ONE, TWO));
    let input = bytes(POLYGON_HOLE)?;
    let ring = kept!(Polygon(view) of read(input.as_slice())?, view.exterior()).unwrap();
    assert_eq!(ring.coord(0).unwrap().x_y_words(), (ONE, TWO));
    assert_eq!(encoding_of(&ring)?, bytes("01 02000000 01000000 P")?.as_slice());
    let input = bytes(MULTI_LINE_TWO)?;
    let line_string = kept!(MultiLineString(view) of read(input.as_slice())?, view.line_string(0)).unwrap();
    assert_eq!(line_string.coord(0).unwrap().x_y_words(), (ONE, TWO));
    Ok(())
}

/// A point of 1.0 and 2.0, and one with an SRID.
const BARE_POINT: &str = "0101000000000000000000f03f0000000000000040";
const POINT: &str = "01e9030020e6100000000000000000f03f00000000000000400000000000000840";

/// A polygon of one ring, and the same big endian with an SRID.
const POLYGON: &str = "01030000000100000001000000000000000000f03f0000000000000040";
const POLYGON_WITH_SRID: &str = "0020000003000010e600000001000000013ff00000000000004000000000000000";

// The cases same-polygons, srid-word and ewkb-point.
#[test]
fn values_and_srids() -> Result<(), Fail> {
    assert!(same_hex(POLYGON, POLYGON_WITH_SRID)?);
    assert_eq!((srid_hex(POINT)?, srid_hex(BARE_POINT)?), (Some(4326), None));
    let ewkb = rewrite_hex_with_srid(POINT, Endianness::BigEndian)?;
    assert_eq!(ewkb, bytes("00a0000001000010e63ff000000000000040000000000000004008000000000000")?.as_slice());
    Ok(())
}
