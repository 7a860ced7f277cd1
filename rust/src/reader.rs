// SPDX-License-Identifier: MIT OR Apache-2.0
//! The reader: the geometry at the start of some bytes, as a view that borrows them.
//!
//! ```
//! use porchsorrel_wkb::geom::{CoordTrait, GeometryTrait, GeometryType, PolygonTrait};
//! use porchsorrel_wkb::reader::read_wkb;
//!
//! // The sum of the first ordinates of a polygon's rings; none of another geometry.
//! fn sum_of_x(bytes: &[u8]) -> Option<f64> {
//!     let wkb = read_wkb(bytes).ok()?;
//!     match wkb.as_type() {
//!         GeometryType::Polygon(polygon) => {
//!             let rings = polygon.exterior().into_iter().chain(polygon.interiors());
//!             Some(rings.map(|ring| ring.coords().map(|it| it.x()).sum::<f64>()).sum())
//!         }
//!         _ => None,
//!     }
//! }
//!
//! let mut polygon = b"\x01\x03\0\0\0\x01\0\0\0\x04\0\0\0".to_vec();
//! polygon.extend([0., 0., 4., 0., 2., 3., 0., 0.].iter().flat_map(|it: &f64| it.to_le_bytes()));
//! assert_eq!(sum_of_x(&polygon), Some(6.0));
//! ```
pub use crate::wkb::reader::{
    Coord, Dimension, GeometryCollection, GeometryType, LineString, LinearRing, MultiLineString, MultiPoint,
    MultiPolygon, Point, Polygon, Wkb, MAX_WKB_NESTING_DEPTH,
};

use crate::check::check;
use crate::error::WkbResult;
use crate::wkb_read::read::read_wkb_within;

/// Reads the geometry at the start of the bytes. Bytes after it are not looked at.
///
/// At most 9 bytes are allocated for each byte of input, and 20 KB, whatever it claims: of collections in one another,
/// each may claim the rest of the input. So as soon as the members of a collection, at every level, are more than the
/// bytes can hold, [`check`] finds the fault, and nothing more is allocated. [`Wkb::try_new`] returns the same without
/// this limit, and may allocate 840 bytes for each byte of input that it then rejects.
///
/// # Errors
///
/// The first fault from left to right: `IOError` where a header or a count is cut short, `General` for a byte order, a
/// code or a length, `IncorrectType` for a member of another kind or dimension than its multi geometry takes,
/// `NestingDepthExceeded` for the 129th collection inside one another. Or `Memory`.
#[inline]
pub fn read_wkb(bytes: &[u8]) -> WkbResult<Wkb<'_>> {
    if may_be_collection(bytes) {
        return read_within(bytes);
    }
    Wkb::try_new(bytes)
}

#[inline(never)]
fn read_within(bytes: &[u8]) -> WkbResult<Wkb<'_>> {
    if let Some(read) = read_wkb_within(bytes) {
        return read;
    }
    check(bytes)?;
    Wkb::try_new(bytes)
}

/// Whether the three lowest bits of the type code, which tell its kind, since 8 divides 1000, are those of 7.
#[inline]
fn may_be_collection(bytes: &[u8]) -> bool {
    let lowest = if bytes.first() == Some(&1) { bytes.get(1) } else { bytes.get(4) };
    matches!(lowest, Some(byte) if byte & 7 == 7)
}
