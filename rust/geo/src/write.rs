// SPDX-License-Identifier: MIT OR Apache-2.0
//! Encodings of any geometry that has the traits.
use geo_traits::{
    CoordTrait, Dimensions, GeometryCollectionTrait, GeometryTrait, GeometryType, LineStringTrait, LineTrait,
    MultiLineStringTrait, MultiPointTrait, MultiPolygonTrait, PointTrait, PolygonTrait, RectTrait, TriangleTrait,
};
use porchsorrel_wkb::check::WkbType;
use porchsorrel_wkb::columns::Levels;
use porchsorrel_wkb::error::{General, Overflow, WkbError, WkbResult};
use porchsorrel_wkb::geom::{Geometry, GeometryCollection};
use porchsorrel_wkb::reader::{Dimension, MAX_WKB_NESTING_DEPTH};
use porchsorrel_wkb::{writer, AllocError, Endianness};
use std::io::Write;
use writer::WriteOptions;

/// Writes a geometry, once all of it is encoded. A line is written as a line string; a triangle as a polygon that ends
/// as it begins; a rectangle as a polygon in x and y, from its least corner on to that of the greatest y. Interiors
/// without an exterior are behind an empty one. Coordinates of two, three or four words without names are XY, XYZ or
/// XYZM.
///
/// # Errors
///
/// For the first part that can't be written: `General(UnsupportedDimensions)`, where a geometry or a coordinate has so
/// many words, and no dimension with a name; `IncorrectType`, where a coordinate, a ring or a member of a multi
/// geometry has another dimension than the whole; `NestingDepthExceeded`, where more than 128 collections are inside
/// one another; `OverflowError`, where a count doesn't fit 32 bits; `Memory`. Where the writer fails: `IOError`.
pub fn write_geometry(
    writer: &mut impl Write,
    geometry: &impl GeometryTrait<T = f64>,
    options: &WriteOptions,
) -> WkbResult<()> {
    Ok(writer.write_all(&to_vec(geometry, options)?)?)
}

/// Returns what [`write_geometry`] writes.
///
/// # Errors
///
/// As [`write_geometry`].
pub fn to_vec(geometry: &impl GeometryTrait<T = f64>, options: &WriteOptions) -> WkbResult<Vec<u8>> {
    let mut out = Vec::new();
    append(&mut out, geometry, options, 0)?;
    Ok(out)
}

/// Returns how many bytes [`write_geometry`] writes in ISO codes. It takes as much time and memory as writing them.
///
/// # Errors
///
/// As [`write_geometry`].
pub fn geometry_wkb_size(geometry: &impl GeometryTrait<T = f64>) -> WkbResult<usize> {
    Ok(to_vec(geometry, &WriteOptions::default())?.len())
}

fn extend<T: Copy>(list: &mut Vec<T>, items: &[T]) -> WkbResult<()> {
    list.try_reserve(items.len()).map_err(|_| AllocError)?;
    list.extend_from_slice(items);
    Ok(())
}

/// The type of geometries of a kind.
type Kind = fn(Dimension) -> WkbType;

/// The dimension that coordinates are written in.
fn named(dim: Dimensions) -> WkbResult<Dimension> {
    match dim {
        Dimensions::Xy | Dimensions::Unknown(2) => Ok(Dimension::Xy),
        Dimensions::Xyz | Dimensions::Unknown(3) => Ok(Dimension::Xyz),
        Dimensions::Xym => Ok(Dimension::Xym),
        Dimensions::Xyzm | Dimensions::Unknown(4) => Ok(Dimension::Xyzm),
        Dimensions::Unknown(words) => Err(WkbError::General(General::UnsupportedDimensions(words))),
    }
}

/// Appends the encoding of a geometry inside so many collections. A collection's is that of an empty one, with the
/// number of the members instead of 0, and then those of the members, which have no SRID.
fn append(
    out: &mut Vec<u8>,
    geometry: &impl GeometryTrait<T = f64>,
    options: &WriteOptions,
    depth: usize,
) -> WkbResult<()> {
    let GeometryType::GeometryCollection(all) = geometry.as_type() else {
        let mut parts =
            Parts { dim: named(geometry.dim())?, words: Vec::new(), rings: Vec::new(), singles: Vec::new() };
        let kind = parts.fill(geometry)?;
        return parts.append(out, kind, options);
    };
    let empty = GeometryCollection::new(named(geometry.dim())?.into(), Vec::new());
    if depth == MAX_WKB_NESTING_DEPTH {
        return Err(WkbError::NestingDepthExceeded(depth));
    }
    extend(out, &writer::to_vec(&Geometry::GeometryCollection(empty), options)?)?;
    let (behind, mut count) = (out.len(), 0_u32);
    for it in all.geometries() {
        append(out, &it, &options.inner(), depth + 1)?;
        count = count.checked_add(1).ok_or(WkbError::OverflowError(Overflow::Count))?;
    }
    out[behind - 4..behind].copy_from_slice(&match options.endianness {
        Endianness::BigEndian => count.to_be_bytes(),
        Endianness::LittleEndian => count.to_le_bytes(),
    });
    Ok(())
}

/// The levels of a geometry that is no collection: its words, the ends of its rings in coordinates, and those of its
/// points, line strings or polygons in rings.
struct Parts {
    dim: Dimension,
    words: Vec<f64>,
    rings: Vec<u64>,
    singles: Vec<u64>,
}

impl Parts {
    /// Rejects a part of another dimension than the whole.
    fn fits(&self, dim: Dimensions) -> WkbResult<()> {
        if named(dim)? == self.dim {
            Ok(())
        } else {
            Err(WkbError::IncorrectType("part of another dimension"))
        }
    }

    /// Appends a coordinate of these numbers.
    fn numbers(&mut self, number: impl Fn(usize) -> f64) -> WkbResult<()> {
        self.words.try_reserve(4).map_err(|_| AllocError)?;
        self.words.extend((0..self.dim.width()).map(number));
        Ok(())
    }

    fn coordinate(&mut self, it: &impl CoordTrait<T = f64>) -> WkbResult<()> {
        self.fits(it.dim())?;
        self.numbers(|n| it.nth_or_panic(n))
    }

    fn end_ring(&mut self) -> WkbResult<()> {
        extend(&mut self.rings, &[(self.words.len() / self.dim.width()) as u64])
    }

    fn end_single(&mut self) -> WkbResult<()> {
        extend(&mut self.singles, &[self.rings.len() as u64])
    }

    fn ring<C: CoordTrait<T = f64>>(&mut self, mut coords: impl Iterator<Item = C>) -> WkbResult<()> {
        coords.try_for_each(|it| self.coordinate(&it))?;
        self.end_ring()
    }

    fn line<C: CoordTrait<T = f64>>(&mut self, coords: impl Iterator<Item = C>) -> WkbResult<()> {
        self.ring(coords)?;
        self.end_single()
    }

    fn point(&mut self, it: &impl PointTrait<T = f64>) -> WkbResult<()> {
        self.fits(it.dim())?;
        match it.coord() {
            Some(it) => self.coordinate(&it)?,
            // The words of an empty point.
            None => self.numbers(|_| f64::from_bits(0x7ff8_0000_0000_0000))?,
        }
        self.end_ring()?;
        self.end_single()
    }

    fn polygon(&mut self, it: &impl PolygonTrait<T = f64>) -> WkbResult<()> {
        self.fits(it.dim())?;
        if it.exterior().is_none() && it.num_interiors() > 0 {
            self.end_ring()?;
        }
        for ring in it.exterior().into_iter().chain(it.interiors()) {
            self.fits(ring.dim())?;
            self.ring(ring.coords())?;
        }
        self.end_single()
    }

    fn rect(&mut self, it: &impl RectTrait<T = f64>) -> WkbResult<()> {
        self.dim = Dimension::Xy;
        let ((left, bottom), (right, top)) = (it.min().x_y(), it.max().x_y());
        for corner in [[left, bottom], [left, top], [right, top], [right, bottom], [left, bottom]] {
            self.numbers(|n| corner[n])?;
        }
        self.end_ring()?;
        self.end_single()
    }

    /// Takes the parts of a geometry, and returns the kind that it is written as.
    fn fill(&mut self, geometry: &impl GeometryTrait<T = f64>) -> WkbResult<Kind> {
        let (filled, kind): (_, Kind) = match geometry.as_type() {
            GeometryType::Point(it) => (self.point(it), WkbType::Point),
            GeometryType::LineString(it) => (self.line(it.coords()), WkbType::LineString),
            GeometryType::Polygon(it) => (self.polygon(it), WkbType::Polygon),
            GeometryType::MultiPoint(it) => (it.points().try_for_each(|it| self.point(&it)), WkbType::MultiPoint),
            GeometryType::MultiLineString(it) => {
                let mut lines = it.line_strings();
                let filled = lines.try_for_each(|it| self.fits(it.dim()).and_then(|()| self.line(it.coords())));
                (filled, WkbType::MultiLineString)
            }
            GeometryType::MultiPolygon(it) => {
                (it.polygons().try_for_each(|it| self.polygon(&it)), WkbType::MultiPolygon)
            }
            GeometryType::Rect(it) => (self.rect(it), WkbType::Polygon),
            GeometryType::Triangle(it) => {
                (self.line([it.first(), it.second(), it.third(), it.first()].into_iter()), WkbType::Polygon)
            }
            GeometryType::Line(it) => (self.line([it.start(), it.end()].into_iter()), WkbType::LineString),
            GeometryType::GeometryCollection(_) => unreachable!("a collection has members, and no levels"),
        };
        filled.map(|()| kind)
    }

    /// Appends the encoding of a geometry of this kind.
    fn append(&self, out: &mut Vec<u8>, kind: Kind, options: &WriteOptions) -> WkbResult<()> {
        let all = [self.singles.len() as u64];
        let (ring_ends, single_ends, row_ends) = (Some(&self.rings[..]), Some(&self.singles[..]), Some(&all[..]));
        let levels = Levels { words: &self.words, ring_ends, single_ends, row_ends };
        let rows = levels.encode(kind(self.dim), options)?;
        // The levels fit the kind, so only a count is left that may not fit.
        extend(out, rows.row(0).ok_or(WkbError::OverflowError(Overflow::Count))?)
    }
}
