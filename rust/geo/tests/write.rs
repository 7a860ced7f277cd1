//! What is written of geometries that no input has, or that are rejected.
use geo_traits::*;
use porchsorrel_wkb::error::{General, WkbError};
use porchsorrel_wkb::writer::{Form, WriteOptions};
use porchsorrel_wkb::Endianness;
use porchsorrel_wkb_geo::{geometry_wkb_size, to_vec, write_geometry};

/// A geometry that has these members, rings or coordinates, or a coordinate that has these numbers.
#[derive(Clone)]
struct Made(Of, Dimensions, Vec<Made>, Vec<f64>);

/// How a geometry says of which kind it is.
type Of = fn(&Made) -> GeometryType<'_, Made, Made, Made, Made, Made, Made, Made, Made, Made, Made>;

/// The kind of this name.
macro_rules! of {
    ($kind:ident) => {
        |it| GeometryType::$kind(it)
    };
}

impl CoordTrait for Made {
    type T = f64;

    fn dim(&self) -> Dimensions {
        self.1
    }

    fn x(&self) -> f64 {
        self.3[0]
    }

    fn y(&self) -> f64 {
        self.3[1]
    }

    fn nth_or_panic(&self, n: usize) -> f64 {
        self.3[n]
    }
}

impl GeometryTrait for Made {
    type T = f64;
    type PointType<'a> = Made;
    type LineStringType<'a> = Made;
    type PolygonType<'a> = Made;
    type MultiPointType<'a> = Made;
    type MultiLineStringType<'a> = Made;
    type MultiPolygonType<'a> = Made;
    type GeometryCollectionType<'a> = Made;
    type RectType<'a> = Made;
    type TriangleType<'a> = Made;
    type LineType<'a> = Made;

    fn dim(&self) -> Dimensions {
        self.1
    }

    fn as_type(&self) -> GeometryType<'_, Made, Made, Made, Made, Made, Made, Made, Made, Made, Made> {
        self.0(self)
    }
}

/// A kind whose parts are these.
macro_rules! parts {
    ($trait:ident, $type:ident, $count:ident, $get:ident) => {
        impl $trait for Made {
            type $type<'a> = Made;

            fn $count(&self) -> usize {
                self.2.len()
            }

            unsafe fn $get(&self, i: usize) -> Made {
                self.2[i].clone()
            }
        }
    };
}

parts!(LineStringTrait, CoordType, num_coords, coord_unchecked);
parts!(MultiPointTrait, InnerPointType, num_points, point_unchecked);
parts!(MultiLineStringTrait, InnerLineStringType, num_line_strings, line_string_unchecked);
parts!(MultiPolygonTrait, InnerPolygonType, num_polygons, polygon_unchecked);
parts!(GeometryCollectionTrait, GeometryType, num_geometries, geometry_unchecked);

/// A kind whose corners are these coordinates.
macro_rules! corners {
    ($trait:ident, $($name:ident $i:literal),*) => {
        impl $trait for Made {
            type CoordType<'a> = Made;

            $(fn $name(&self) -> Made {
                self.2[$i].clone()
            })*
        }
    };
}

corners!(LineTrait, start 0, end 1);
corners!(RectTrait, min 0, max 1);
corners!(TriangleTrait, first 0, second 1, third 2);

impl PointTrait for Made {
    type CoordType<'a> = Made;

    fn coord(&self) -> Option<Made> {
        self.2.first().cloned()
    }
}

impl PolygonTrait for Made {
    type RingType<'a> = Made;

    /// As of geo_types: an empty one is none.
    fn exterior(&self) -> Option<Made> {
        self.2.first().filter(|it| !it.2.is_empty()).cloned()
    }

    fn num_interiors(&self) -> usize {
        self.2.len().saturating_sub(1)
    }

    unsafe fn interior_unchecked(&self, i: usize) -> Made {
        self.2[i + 1].clone()
    }
}

fn coord(dimensions: Dimensions, numbers: &[f64]) -> Made {
    Made(of!(Point), dimensions, vec![], numbers.to_vec())
}

fn made(of: Of, dimensions: Dimensions, parts: Vec<Made>) -> Made {
    Made(of, dimensions, parts, vec![])
}

fn point(dimensions: Dimensions, numbers: &[f64]) -> Made {
    made(of!(Point), dimensions, vec![coord(dimensions, numbers)])
}

/// A geometry of these corners.
fn cornered(of: Of, corners: &[&[f64]]) -> Made {
    let dimensions = Dimensions::Unknown(corners[0].len());
    made(of, dimensions, corners.iter().map(|it| coord(dimensions, it)).collect())
}

/// The encoding in big endian of a code, a list of counts and words.
fn bytes(code: u32, counts: &[u32], words: &[f64]) -> Vec<u8> {
    let mut made = vec![0];
    made.extend(code.to_be_bytes());
    made.extend(counts.iter().flat_map(|it| it.to_be_bytes()));
    made.extend(words.iter().flat_map(|it| it.to_be_bytes()));
    made
}

const BIG: WriteOptions = WriteOptions { endianness: Endianness::BigEndian, form: Form::Iso };

/// What is written has these bytes.
fn expect(geometry: &impl GeometryTrait<T = f64>, expected: &[u8]) {
    let mut out = Vec::new();
    write_geometry(&mut out, geometry, &BIG).unwrap();
    assert!(out == expected, "{out:x?} for {expected:x?}");
    assert_eq!(geometry_wkb_size(geometry).unwrap(), expected.len());
}

#[test]
fn kinds_that_no_input_has() {
    let line = cornered(of!(Line), &[&[1., 2., 3.], &[4., 5., 6.]]);
    expect(&line, &bytes(1002, &[2], &[1., 2., 3., 4., 5., 6.]));
    // A rectangle is written in x and y.
    let corners = [1., 2., 1., 5., 4., 5., 4., 2., 1., 2.];
    expect(&cornered(of!(Rect), &[&[1., 2., 3.], &[4., 5., 6.]]), &bytes(3, &[1, 5], &corners));
    let line = made(of!(LineString), Dimensions::Xy, vec![coord(Dimensions::Xy, &[1., 2.])]);
    let empty = made(of!(LineString), Dimensions::Xy, vec![]);
    let polygon = made(of!(Polygon), Dimensions::Xy, vec![empty, line]);
    expect(&polygon, &bytes(3, &[2, 0, 1], &[1., 2.]));
    let triangle = cornered(of!(Triangle), &[&[0., 0.], &[1., 0.], &[0., 1.]]);
    expect(&triangle, &bytes(3, &[1, 4], &[0., 0., 1., 0., 0., 1., 0., 0.]));
}

const DIMENSIONS: [(Dimensions, u32, usize); 7] = [
    (Dimensions::Xy, 1, 2),
    (Dimensions::Xyz, 1001, 3),
    (Dimensions::Xym, 2001, 3),
    (Dimensions::Xyzm, 3001, 4),
    (Dimensions::Unknown(2), 1, 2),
    (Dimensions::Unknown(3), 1001, 3),
    (Dimensions::Unknown(4), 3001, 4),
];

#[test]
fn points() {
    let nan = f64::from_bits(0x7ff8_0000_0000_0000);
    for (dimensions, code, width) in DIMENSIONS {
        let words = &[1., 2., 3., 4.][..width];
        expect(&point(dimensions, words), &bytes(code, &[], words));
        let empty = made(of!(Point), dimensions, vec![]);
        expect(&empty, &bytes(code, &[], &[nan; 4][..width]));
    }
}

fn refused(geometry: &impl GeometryTrait<T = f64>) -> WkbError {
    to_vec(geometry, &BIG).unwrap_err()
}

/// An empty member of another dimension is rejected as one with a coordinate is, and so are a ring and a coordinate.
#[test]
fn parts_of_another_dimension() {
    for ((outer, code, _), (inner, other, _)) in DIMENSIONS.iter().flat_map(|a| DIMENSIONS.map(|b| (*a, b))) {
        let coords = || vec![coord(inner, &[1.; 4])];
        let rings = || vec![made(of!(LineString), inner, coords())];
        let mut wholes = vec![
            made(of!(LineString), outer, coords()),
            made(of!(Polygon), outer, rings()),
            made(of!(Polygon), outer, vec![made(of!(LineString), inner, vec![]); 2]),
        ];
        let multis: [(Of, Of, Vec<Made>); 3] = [
            (of!(MultiPoint), of!(Point), coords()),
            (of!(MultiLineString), of!(LineString), coords()),
            (of!(MultiPolygon), of!(Polygon), rings()),
        ];
        for (kind, of, parts) in multis {
            wholes.extend([vec![], parts].map(|it| made(kind, outer, vec![made(of, inner, it)])));
        }
        for whole in wholes {
            if code == other {
                assert!(to_vec(&whole, &BIG).is_ok(), "{outer:?} of {inner:?}");
            } else {
                let why = refused(&whole);
                assert!(matches!(why, WkbError::IncorrectType(_)), "{outer:?} of {inner:?}: {why}");
            }
        }
    }
}

#[test]
fn words_without_a_dimension() {
    for words in [0, 1, 5] {
        let dimensions = Dimensions::Unknown(words);
        let corners = vec![coord(dimensions, &[1.; 5]); 3];
        let kinds: [Of; 5] = [of!(Point), of!(GeometryCollection), of!(Rect), of!(Triangle), of!(Line)];
        let mut all = kinds.map(|of| made(of, dimensions, corners.clone())).to_vec();
        all.push(made(of!(MultiPoint), Dimensions::Xy, vec![made(of!(Point), dimensions, vec![])]));
        for it in all {
            let why = refused(&it);
            assert!(matches!(why, WkbError::General(General::UnsupportedDimensions(n)) if n == words), "{why}");
        }
    }
}

#[test]
fn depth() {
    let around = |it| made(of!(GeometryCollection), Dimensions::Xy, vec![it]);
    let whole = (0..128).fold(point(Dimensions::Xy, &[1., 2.]), |it, _| around(it));
    let mut expected = bytes(7, &[1], &[]).repeat(128);
    expected.extend(bytes(1, &[], &[1., 2.]));
    expect(&whole, &expected);
    assert!(matches!(refused(&around(whole)), WkbError::NestingDepthExceeded(128)));
}
