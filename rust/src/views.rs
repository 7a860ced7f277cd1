// SPDX-License-Identifier: MIT OR Apache-2.0
//! What views and bounds have beside the proved calls: iterators over parts, numbers of envelopes, and copies.
use crate::check::{Bounds, Range};
use crate::geom::{MultiLineStringTrait, MultiPointTrait, MultiPolygonTrait, PolygonTrait};
use crate::reader::{
    Coord, GeometryCollection, LineString, LinearRing, MultiLineString, MultiPoint, MultiPolygon, Point, Polygon, Wkb,
};
use crate::TryClone;
use alloc::alloc::{handle_alloc_error, Layout};

macro_rules! coords {
    ($($view:ident)*) => {$(
        impl<'a> $view<'a> {
            /// Gives the coordinates, in order.
            #[inline]
            pub fn coords(&self) -> impl DoubleEndedIterator<Item = Coord<'a>> + ExactSizeIterator + 'a {
                let (order, dimension) = (self.byte_order(), self.dimension());
                let each = self.coords_slice().chunks_exact(dimension.coordinate_size());
                each.map(move |bytes| Coord { bytes, order, dimension })
            }
        }
    )*};
}

coords! { LineString LinearRing }

macro_rules! parts {
    ($($view:ident: $parts:ident by $part:ident below $count:ident, $item:ty, $says:literal;)*) => {$(
        impl<'a> $view<'a> {
            #[doc = $says]
            #[inline]
            pub fn $parts(&self) -> impl DoubleEndedIterator<Item = $item> + ExactSizeIterator + '_ {
                (0..self.$count()).map(move |i| self.$part(i).expect("a part below the count"))
            }
        }
    )*};
}

parts! {
    Polygon: interiors by interior below num_interiors, LinearRing<'a>, "Gives the interiors, in order.";
    MultiPoint: points by point below num_points, Point<'a>, "Gives the points, in order.";
    MultiLineString: line_strings by line_string below num_line_strings, LineString<'a>,
        "Gives the line strings, in order.";
    MultiPolygon: polygons by polygon below num_polygons, &'_ Polygon<'a>, "Gives the polygons, in order.";
}

macro_rules! clones {
    ($($view:ident)*) => {$(
        /// As `try_clone`; but if an allocation fails, the process ends, as it does at the clone of a `Vec`.
        impl Clone for $view<'_> {
            fn clone(&self) -> Self {
                self.try_clone().unwrap_or_else(|_| handle_alloc_error(Layout::new::<Self>()))
            }
        }
    )*};
}

clones! { Polygon MultiLineString MultiPolygon GeometryCollection Wkb }

impl Range {
    /// Returns the least number; infinity where there is none.
    #[must_use]
    pub fn min(&self) -> f64 {
        f64::from_bits(self.least)
    }

    /// Returns the greatest number; minus infinity where there is none.
    #[must_use]
    pub fn max(&self) -> f64 {
        f64::from_bits(self.greatest)
    }

    fn union(self, other: Range) -> Range {
        match (self.count, other.count) {
            (_, 0) => self,
            (0, _) => other,
            (a, b) => Range { count: a + b, ..self.with_word(other.least).with_word(other.greatest) },
        }
    }
}

/// The bounds of no coordinate.
impl Default for Bounds {
    fn default() -> Self {
        Bounds::empty()
    }
}

impl Bounds {
    /// Returns the bounds of two geometries together.
    #[must_use]
    pub fn union(self, other: Bounds) -> Bounds {
        let (x, y) = (self.x.union(other.x), self.y.union(other.y));
        Bounds { x, y, z: self.z.union(other.z), m: self.m.union(other.m) }
    }
}
