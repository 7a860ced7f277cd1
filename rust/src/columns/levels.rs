// SPDX-License-Identifier: MIT OR Apache-2.0
//! Coordinates of rows, and rows of coordinates.
use super::{Encodings, Status};
use crate::check::WkbType;
use crate::rt::{try_filled, AllocError, Vec};
use crate::wkb_levels::{self as proved, Ends, Kind, Place};
use crate::writer::WriteOptions;

/// The coordinates of rows, in levels as GeoArrow has them: a row has singles (points, line strings and polygons), a
/// single has rings, a ring has coordinates. Each end counts from the start of the column.
///
/// Let `rows`, `singles` and `rings` be a 0 and then the ends of a level. Of rows of one kind, GeoArrow's offsets are
/// these, from the outermost list on:
///
/// | rows | offsets |
/// |---|---|
/// | line strings, multi points | `rings[singles[rows[i]]]` |
/// | polygons | `singles[rows[i]]`; `rings` |
/// | multi line strings | `rows`; `rings` |
/// | multi polygons | `rows`; `singles`; `rings` |
///
/// A row whose status isn't OK is null and has an empty list. Points have no lists: there a null row takes a coordinate
/// too, of NaNs.
///
/// ```
/// use porchsorrel_wkb::columns::Rows;
/// use porchsorrel_wkb::reader::Dimension;
///
/// let mut line = vec![1, 2, 0, 0, 0, 2, 0, 0, 0];
/// line.extend([1.0, 2.0, 3.0, 4.0].iter().flat_map(|word: &f64| word.to_le_bytes()));
/// let rows = Rows::of([Some(&line), None, Some(&line)])?;
/// let found = rows.column().coordinates(Dimension::Xy)?;
///
/// let levels = [&found.row_ends, &found.single_ends, &found.ring_ends];
/// let [rows, singles, rings] = levels.map(|ends| [&[0], &ends[..]].concat());
/// let offsets: Vec<u64> = rows.iter().map(|row| rings[singles[*row as usize] as usize]).collect();
/// assert_eq!(offsets, [0, 2, 2, 4]);
/// # Ok::<(), porchsorrel_wkb::AllocError>(())
/// ```
#[derive(Clone, Debug, Default, PartialEq)]
pub struct Coordinates {
    /// One coordinate after another.
    pub words: Vec<f64>,
    /// For each ring, its end in coordinates.
    pub ring_ends: Vec<u64>,
    /// For each single, its end in rings.
    pub single_ends: Vec<u64>,
    /// For each row, its end in singles.
    pub row_ends: Vec<u64>,
    /// What became of each row.
    pub statuses: Vec<Status>,
}

/// Rows of one type, as [`Coordinates`] has them. Where the ends of a level are left out, item i has item i of the next
/// level: points need no ends, line strings `ring_ends`, polygons `single_ends` too, and multi geometries `row_ends`
/// besides what their members need.
///
/// ```
/// use porchsorrel_wkb::check::{check, WkbType};
/// use porchsorrel_wkb::columns::Levels;
/// use porchsorrel_wkb::reader::Dimension;
/// use porchsorrel_wkb::writer::WriteOptions;
///
/// // A polygon of a square and a square hole.
/// let words = [0., 0., 10., 0., 10., 10., 0., 10., 0., 0., 2., 2., 2., 8., 8., 8., 8., 2., 2., 2.];
/// let levels = Levels { words: &words, ring_ends: Some(&[5, 10]), single_ends: Some(&[2]), ..Levels::default() };
/// let rows = levels.encode(WkbType::Polygon(Dimension::Xy), &WriteOptions::default())?;
/// let found = check(rows.row(0).unwrap()).unwrap();
/// assert_eq!((found.parts, found.coordinates), (3, 10));
/// # Ok::<(), porchsorrel_wkb::AllocError>(())
/// ```
#[derive(Clone, Copy, Debug, Default, PartialEq)]
pub struct Levels<'a> {
    /// One coordinate after another. These are copied, since the writer takes their bits.
    pub words: &'a [f64],
    /// For each ring, its end in coordinates.
    pub ring_ends: Option<&'a [u64]>,
    /// For each single (a point, a line string or a polygon), its end in rings.
    pub single_ends: Option<&'a [u64]>,
    /// For each row, its end in singles.
    pub row_ends: Option<&'a [u64]>,
}

impl Levels<'_> {
    /// Encodes each row. A row whose levels don't fit its type or each other is [`Status::BAD_LEVELS`]; no row
    /// stops the others. If the words are no whole number of coordinates, all rows are that; a level without ends has
    /// an item for the rest of them as well.
    ///
    /// Of [`Coordinates`] leave out null and rejected rows, and collections. Otherwise a null or rejected row, which
    /// has no singles, comes back as an empty multi geometry, or is [`Status::BAD_LEVELS`] if the type is no multi
    /// geometry. A collection comes back as the geometry of this type that its singles make, if they make one.
    ///
    /// # Panics
    ///
    /// If the type is a collection, which rows can't have.
    pub fn encode(&self, wkb_type: WkbType, options: &WriteOptions) -> Result<Encodings, AllocError> {
        let kind = match wkb_type {
            WkbType::Point(_) => Kind::Point,
            WkbType::LineString(_) => Kind::LineString,
            WkbType::Polygon(_) => Kind::Polygon,
            WkbType::MultiPoint(_) => Kind::MultiPoint,
            WkbType::MultiLineString(_) => Kind::MultiLineString,
            WkbType::MultiPolygon(_) => Kind::MultiPolygon,
            WkbType::GeometryCollection(_) => panic!("rows of {wkb_type:?}"),
        };
        let (dim, width) = (wkb_type.dimension().into(), wkb_type.dimension().width());
        // Not by `extend`, for which rustc 1.63 takes a number through the x87 of i686, where it has no SSE.
        let mut words = try_filled(0, self.words.len())?;
        words.iter_mut().zip(self.words).for_each(|(word, it)| *word = it.to_bits());
        // Without ends, what is left of a coordinate is an item.
        let ends_of = |ends, items: usize| match ends {
            Some(ends) => Ends::At { start: 0, ends },
            None => Ends::Each { from: 0, to: items as u64 },
        };
        let ring_ends = ends_of(self.ring_ends, (words.len() + width - 1) / width);
        let single_ends = ends_of(self.single_ends, ring_ends.len());
        let row_ends = ends_of(self.row_ends, single_ends.len());
        let rows = row_ends.len();
        let levels = proved::Levels { words: &words, ring_ends, single_ends, row_ends };
        let (mut ends, mut statuses) = (try_filled(0, rows)?, try_filled(Status::BAD_LEVELS, rows)?);
        if words.len() % width != 0 {
            return Ok(Encodings { data: Vec::new(), ends, statuses });
        }
        let (mut floor, mut size) = (Place::front(), 0_u64);
        for (row, (end, status)) in ends.iter_mut().zip(&mut statuses).enumerate() {
            if let Some(Ok(own)) = levels.row(kind, dim, row, &mut floor).map(|it| it.size(options)) {
                (*status, size) = (Status::OK, size + own as u64);
            }
            *end = size;
        }
        let mut data = try_filled(0, usize::try_from(size).map_err(|_| AllocError)?)?;
        let (mut floor, mut at) = (Place::front(), 0);
        for (row, end) in ends.iter().enumerate() {
            levels.write_row(kind, dim, options, row, &mut floor, &mut data[at..]);
            at = *end as usize;
        }
        Ok(Encodings { data, ends, statuses })
    }
}
