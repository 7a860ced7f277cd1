// SPDX-License-Identifier: MIT OR Apache-2.0
//! The views of what was read, by the traits.
use geo_traits::{
    CoordTrait, Dimensions, GeometryCollectionTrait, GeometryTrait, GeometryType, LineStringTrait,
    MultiLineStringTrait, MultiPointTrait, MultiPolygonTrait, PointTrait, PolygonTrait, UnimplementedLine,
    UnimplementedRect, UnimplementedTriangle,
};
use porchsorrel_wkb::geom::{
    self, GeometryCollectionTrait as _, GeometryTrait as _, MultiLineStringTrait as _, MultiPointTrait as _,
    MultiPolygonTrait as _, PointTrait as _, PolygonTrait as _,
};
use porchsorrel_wkb::reader::{self, Dimension, Wkb};
use porchsorrel_wkb::Endianness;

fn dimensions(of: Dimension) -> Dimensions {
    match of {
        Dimension::Xy => Dimensions::Xy,
        Dimension::Xyz => Dimensions::Xyz,
        Dimension::Xym => Dimensions::Xym,
        Dimension::Xyzm => Dimensions::Xyzm,
    }
}

/// The trait that each geometry has: its dimension, and which kind it is.
#[rustfmt::skip]
macro_rules! geometry_trait {
    ($name:ident, $it:ident => $dim:expr, $kind:expr) => {
        impl<'a> GeometryTrait for $name<'a> {
            type T = f64;
            type PointType<'b> = Point<'a> where Self: 'b;
            type LineStringType<'b> = LineString<'a> where Self: 'b;
            type PolygonType<'b> = Polygon<'a> where Self: 'b;
            type MultiPointType<'b> = MultiPoint<'a> where Self: 'b;
            type MultiLineStringType<'b> = MultiLineString<'a> where Self: 'b;
            type MultiPolygonType<'b> = MultiPolygon<'a> where Self: 'b;
            type GeometryCollectionType<'b> = GeometryCollection<'a> where Self: 'b;
            type RectType<'b> = UnimplementedRect<f64> where Self: 'b;
            type TriangleType<'b> = UnimplementedTriangle<f64> where Self: 'b;
            type LineType<'b> = UnimplementedLine<f64> where Self: 'b;

            fn dim(&self) -> Dimensions {
                let $it = self;
                $dim
            }

            fn as_type(&self) -> GeometryType<
                '_, Point<'a>, LineString<'a>, Polygon<'a>, MultiPoint<'a>, MultiLineString<'a>, MultiPolygon<'a>,
                GeometryCollection<'a>, UnimplementedRect<f64>, UnimplementedTriangle<f64>, UnimplementedLine<f64>,
            > {
                let $it = self;
                $kind
            }
        }
    };
}

/// The kinds of geometries, each by what it holds of its view.
macro_rules! kinds {
    ($($name:ident($view:ty), $says:literal;)*) => {
        /// A geometry that was read, as a view of its kind: `Geometry::from(&wkb)`.
        #[derive(Clone, Copy, Debug)]
        pub enum Geometry<'a> {
            $(#[doc = $says] $name($name<'a>),)*
        }

        geometry_trait!(
            Geometry,
            it => match it { $(Geometry::$name(it) => it.dim()),* },
            match it { $(Geometry::$name(it) => GeometryType::$name(it)),* }
        );

        $(
            #[doc = $says]
            #[derive(Clone, Copy, Debug)]
            pub struct $name<'a>($view);

            impl<'a> From<$view> for $name<'a> {
                fn from(view: $view) -> $name<'a> {
                    $name(view)
                }
            }

            geometry_trait!($name, it => dimensions(it.0.dimension()), GeometryType::$name(it));
        )*
    };
}

kinds! {
    Point(reader::Point<'a>), "A point.";
    LineString(Words<'a>), "A line string, or a ring of a polygon.";
    Polygon(&'a reader::Polygon<'a>), "A polygon.";
    MultiPoint(reader::MultiPoint<'a>), "A multi point.";
    MultiLineString(&'a reader::MultiLineString<'a>), "A multi line string.";
    MultiPolygon(&'a reader::MultiPolygon<'a>), "A multi polygon.";
    GeometryCollection(&'a reader::GeometryCollection<'a>), "A collection.";
}

impl<'a> From<&'a Wkb<'a>> for Geometry<'a> {
    fn from(wkb: &'a Wkb<'a>) -> Geometry<'a> {
        if let Some(it) = wkb.as_geometry_collection() {
            return Geometry::GeometryCollection(it.into());
        }
        match wkb.as_type() {
            geom::GeometryType::Point(it) => Geometry::Point((*it).into()),
            geom::GeometryType::LineString(it) => Geometry::LineString((*it).into()),
            geom::GeometryType::Polygon(it) => Geometry::Polygon(it.into()),
            geom::GeometryType::MultiPoint(it) => Geometry::MultiPoint((*it).into()),
            geom::GeometryType::MultiLineString(it) => Geometry::MultiLineString(it.into()),
            geom::GeometryType::MultiPolygon(it) => Geometry::MultiPolygon(it.into()),
            _ => unreachable!("bytes hold no rectangle, triangle or line"),
        }
    }
}

/// The traits of kinds with parts: the type of these, and the calls of the view that count and return them.
#[rustfmt::skip]
macro_rules! parts {
    ($($trait:ident for $name:ident:
       $type:ident = $part:ident, $count:ident, $get:ident, $unchecked:ident $({ $($more:tt)* })?;)*) => {$(
        impl<'a> $trait for $name<'a> {
            type $type<'b> = $part<'a> where Self: 'b;

            fn $count(&self) -> usize {
                self.0.$count()
            }

            unsafe fn $unchecked(&self, i: usize) -> $part<'a> {
                self.0.$get(i).expect("an index below the count").into()
            }

            $($($more)*)?
        }
    )*};
}

parts! {
    PolygonTrait for Polygon: RingType = LineString, num_interiors, interior, interior_unchecked {
        fn exterior(&self) -> Option<LineString<'a>> {
            self.0.exterior().map(LineString::from)
        }
    };
    MultiPointTrait for MultiPoint: InnerPointType = Point, num_points, point, point_unchecked;
    MultiLineStringTrait for MultiLineString:
        InnerLineStringType = LineString, num_line_strings, line_string, line_string_unchecked;
    MultiPolygonTrait for MultiPolygon: InnerPolygonType = Polygon, num_polygons, polygon, polygon_unchecked;
    GeometryCollectionTrait for GeometryCollection:
        GeometryType = Geometry, num_geometries, geometry, geometry_unchecked;
}

/// The words of coordinates, one after another.
#[derive(Clone, Copy, Debug)]
struct Words<'a> {
    bytes: &'a [u8],
    order: Endianness,
    dimension: Dimension,
}

impl Words<'_> {
    fn dimension(&self) -> Dimension {
        self.dimension
    }
}

impl<'a> From<reader::LineString<'a>> for LineString<'a> {
    fn from(it: reader::LineString<'a>) -> LineString<'a> {
        LineString(Words { bytes: it.coords_slice(), order: it.byte_order(), dimension: it.dimension() })
    }
}

impl<'a> From<reader::LinearRing<'a>> for LineString<'a> {
    fn from(it: reader::LinearRing<'a>) -> LineString<'a> {
        LineString(Words { bytes: it.coords_slice(), order: it.byte_order(), dimension: it.dimension() })
    }
}

#[rustfmt::skip]
impl<'a> LineStringTrait for LineString<'a> {
    type CoordType<'b> = Coord<'a> where Self: 'b;

    fn coords(&self) -> impl DoubleEndedIterator + ExactSizeIterator<Item = Coord<'a>> {
        let Words { bytes, order, dimension } = self.0;
        bytes.chunks_exact(dimension.coordinate_size()).map(move |bytes| Coord(Words { bytes, order, dimension }))
    }

    fn num_coords(&self) -> usize {
        self.0.bytes.len() / self.0.dimension.coordinate_size()
    }

    unsafe fn coord_unchecked(&self, i: usize) -> Coord<'a> {
        let size = self.0.dimension.coordinate_size();
        Coord(Words { bytes: &self.0.bytes[size * i..size * (i + 1)], ..self.0 })
    }
}

#[rustfmt::skip]
impl<'a> PointTrait for Point<'a> {
    type CoordType<'b> = Coord<'a> where Self: 'b;

    fn coord(&self) -> Option<Coord<'a>> {
        let it = self.0.coord()?;
        Some(Coord(Words { bytes: it.coord_slice(), order: it.byte_order(), dimension: it.dimension() }))
    }
}

/// A coordinate.
#[derive(Clone, Copy, Debug)]
pub struct Coord<'a>(Words<'a>);

impl CoordTrait for Coord<'_> {
    type T = f64;

    fn dim(&self) -> Dimensions {
        dimensions(self.0.dimension)
    }

    #[inline]
    fn x(&self) -> f64 {
        self.nth_or_panic(0)
    }

    #[inline]
    fn y(&self) -> f64 {
        self.nth_or_panic(1)
    }

    #[inline]
    fn nth_or_panic(&self, n: usize) -> f64 {
        let mut word = [0; 8];
        word.copy_from_slice(&self.0.bytes[n.saturating_mul(8)..][..8]);
        f64::from_bits(match self.0.order {
            Endianness::BigEndian => u64::from_be_bytes(word),
            Endianness::LittleEndian => u64::from_le_bytes(word),
        })
    }
}
