// SPDX-License-Identifier: MIT OR Apache-2.0
#![doc = include_str!("../README.md")]
#![forbid(unsafe_code)]
#![warn(missing_debug_implementations, missing_docs, clippy::missing_errors_doc, clippy::missing_panics_doc)]
#![no_std]

extern crate alloc;
#[cfg(feature = "std")]
extern crate std;

/// An index that isn't below a count is refused, as that of a slice, where the proved call has it for a duty.
macro_rules! below {
    ($i:expr, $count:expr) => {
        assert!($i < $count, "index {} of {}", $i, $count)
    };
}
pub(crate) use below;

pub mod canon;
pub mod columns;
pub mod geopackage;
pub mod parts;
pub mod reader;
mod refused;
mod rt;
mod views;
pub mod writer;

mod wkb; // A clone has these modules once tools/erase has made them.
mod wkb_abi;
mod wkb_bounds;
mod wkb_c;
mod wkb_check;
mod wkb_clients;
mod wkb_geom;
mod wkb_levels;
mod wkb_plain;
mod wkb_read;
mod wkb_rewrite;
mod wkb_sink;
mod wkb_view;
mod wkb_write;

#[cfg(feature = "std")]
mod errors {
    use std::error::Error;

    impl Error for crate::AllocError {}
    impl Error for crate::check::Refused {}
    impl Error for crate::columns::NotCollected {}
    impl Error for crate::error::General {}
    impl Error for crate::error::Overflow {}
    impl Error for crate::error::WkbError {}
    impl Error for crate::geopackage::NoHeader {}
}
#[cfg(not(feature = "std"))]
pub use rt::io;
pub use rt::{AllocError, TryClone};
pub use wkb::Endianness;

/// The check: whether a geometry is at the start of some bytes, what it is, where it ends, and its bounds. Nothing is
/// allocated.
///
/// ```
/// use porchsorrel_wkb::check::{bounds, check};
///
/// // A collection of two points, the second of which is cut off after its x: 13 bytes of 21.
/// let mut input = b"\x01\x07\0\0\0\x02\0\0\0".to_vec();
/// input.extend(b"\x01\x01\0\0\0\0\0\0\0\0\0\xf0\x3f\0\0\0\0\0\0\0\x40");
/// input.extend(b"\x01\x01\0\0\0\0\0\0\0\0\0\x08\x40");
/// let why = check(&input).unwrap_err();
/// assert_eq!((why.part, why.offset, why.ends()), (2, 30, Some((21, 13))));
/// assert_eq!(why.to_string(), "the input ends inside a point, at byte 30 (part 2): it needs 21 bytes and has 13");
///
/// input.extend([0; 8]);
/// let found = check(&input)?;
/// assert_eq!((found.bytes, found.parts, found.coordinates, found.srid), (51, 3, 2, None));
/// assert_eq!((bounds(&input)?.x.max(), bounds(&input)?.y.min()), (3.0, 0.0));
/// # Ok::<(), Box<dyn std::error::Error>>(())
/// ```
pub mod check {
    pub use crate::wkb::check::{bounds, check, Bounds, Cause, Range, Refused, Summary, WkbType};
}

/// A walk over all coordinates of a geometry of any kind, at every level and in order. It allocates nothing.
///
/// ```
/// use porchsorrel_wkb::coordinates::{visit_coordinates, Visitor};
/// use porchsorrel_wkb::geom::CoordTrait;
/// use porchsorrel_wkb::reader::read_wkb;
/// use porchsorrel_wkb::AllocError;
///
/// struct Xs(Vec<f64>);
///
/// impl Visitor for Xs {
///     fn visit<C: CoordTrait>(&mut self, coord: &C) -> Result<(), AllocError> {
///         self.0.try_reserve(1).map_err(|_| AllocError)?;
///         self.0.push(coord.x());
///         Ok(())
///     }
/// }
///
/// let mut xs = Xs(vec![]);
/// visit_coordinates(&mut xs, &read_wkb(b"\x01\x01\0\0\0\0\0\0\0\0\0\xf0\x3f\0\0\0\0\0\0\0\x40")?)?;
/// assert_eq!(xs.0, [1.0]);
/// # Ok::<(), porchsorrel_wkb::error::WkbError>(())
/// ```
pub mod coordinates {
    pub use crate::wkb::coordinates::{visit_coordinates, Visitor};
}

/// Why a geometry is not read or not written.
///
/// ```
/// use porchsorrel_wkb::error::WkbError;
/// use porchsorrel_wkb::reader::read_wkb;
///
/// match read_wkb(&[1, 1, 0, 0, 0]) {
///     Err(WkbError::General(why)) => println!("rejected: {why}"),
///     Err(WkbError::Memory(_)) => println!("try again later"),
///     other => println!("{other:?}"),
/// }
/// ```
pub mod error {
    pub use crate::wkb::error::{General, Overflow, WkbError, WkbResult};
}

/// The traits that geometries of one's own implement, as views do; types that have them over words that are lent; and
/// the number that a word stands for.
///
/// ```
/// use porchsorrel_wkb::geom::{CoordTrait, Dimensioned, Dimensions, PointTrait};
/// use porchsorrel_wkb::writer::{write_point, WriteOptions};
///
/// /// A place of one's own.
/// #[derive(Clone, Copy)]
/// struct Place {
///     longitude: f64,
///     latitude: f64,
/// }
///
/// impl Dimensioned for Place {
///     fn dim(&self) -> Dimensions {
///         Dimensions::Xy
///     }
/// }
///
/// impl CoordTrait for Place {
///     fn nth_word(&self, n: usize) -> Option<u64> {
///         [self.longitude, self.latitude].get(n).map(|it| it.to_bits())
///     }
/// }
///
/// impl PointTrait for Place {
///     type CoordType = Place;
///
///     fn coord(&self) -> Option<Place> {
///         Some(*self)
///     }
/// }
///
/// let mut out = Vec::new();
/// write_point(&mut out, &Place { longitude: 1.0, latitude: 2.0 }, &WriteOptions::default())?;
/// assert_eq!(out, b"\x01\x01\0\0\0\0\0\0\0\0\0\xf0\x3f\0\0\0\0\0\0\0\x40");
/// # Ok::<(), porchsorrel_wkb::error::WkbError>(())
/// ```
pub mod geom {
    pub use crate::wkb::geom::{
        is_at_most, ordinate, Coord, CoordTrait, Dimensioned, Dimensions, Geometry, GeometryCollection,
        GeometryCollectionTrait, GeometryTrait, GeometryType, Line, LineString, LineStringTrait, LineTrait,
        MultiLineString, MultiLineStringTrait, MultiPoint, MultiPointTrait, MultiPolygon, MultiPolygonTrait, Point,
        PointTrait, Polygon, PolygonTrait, Rect, RectTrait, Triangle, TriangleTrait,
    };
}
