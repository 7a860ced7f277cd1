// SPDX-License-Identifier: MIT OR Apache-2.0
//! A column of encodings, as Arrow has it.
use super::{Coordinates, Status};
use crate::canon::lay;
use crate::check::{Bounds, Summary};
use crate::reader::Dimension;
use crate::rt::{try_filled, AllocError, TryCopy, Vec};
use crate::wkb_abi::column::{found_in, Column as Raw};
use crate::wkb_abi::level_slices::LevelSlices;
use crate::wkb_abi::totals::Totals;
use crate::wkb_c::{wkb_raw_column_bounds, wkb_raw_column_check, wkb_raw_column_coordinates};
use crate::wkb_geom::header::SRID_SIZE;
use crate::writer::{Form, WriteOptions};
use crate::Endianness;
use core::ops::Range;

/// A column as Arrow has it: row i has the bytes of the data from offset i up to offset i + 1. Offsets and validity may
/// be anything: a row with bad offsets is [`Status::BAD_OFFSETS`].
#[derive(Clone, Copy, Debug)]
#[must_use]
pub struct Column<'a>(Raw<'a>);

impl<'a> Column<'a> {
    /// Makes a column with offsets of 32 bits in the machine's order, as the bytes of Arrow's buffer, which aren't
    /// copied. There is one offset more than there are rows. Numbers become such bytes by `to_ne_bytes`.
    pub fn binary(data: &'a [u8], offsets: &'a [u8]) -> Self {
        Column(Raw { bytes: data, offsets, offset_size: 4, validity: &[], validity_offset: 0 })
    }

    /// Makes a column with offsets of 64 bits.
    pub fn large_binary(data: &'a [u8], offsets: &'a [u8]) -> Self {
        Column(Raw { offset_size: 8, ..Column::binary(data, offsets).0 })
    }

    /// Returns the same column with a validity bitmap, least significant bit first, 0 for a null row. The first row's
    /// bit is `first`. None if there are fewer bits than rows.
    #[must_use]
    pub fn with_validity(self, bits: &'a [u8], first: usize) -> Option<Self> {
        let has_all = first.checked_add(self.len())? <= bits.len().saturating_mul(8);
        has_all.then_some(Column(Raw { validity: bits, validity_offset: first, ..self.0 }))
    }

    /// Returns how many rows there are.
    #[must_use]
    pub fn len(&self) -> usize {
        (self.0.offsets.len() / self.0.offset_size).saturating_sub(1)
    }

    /// Tells whether there is no row.
    #[must_use]
    pub fn is_empty(&self) -> bool {
        self.len() == 0
    }

    /// Returns the rows of a range as a column. A row that begins before the end of an earlier one has bad offsets in
    /// columns that have both.
    ///
    /// # Panics
    ///
    /// If there are fewer rows.
    pub fn slice(&self, rows: Range<usize>) -> Column<'a> {
        assert!(rows.start <= rows.end && rows.end <= self.len(), "rows {rows:?} of {}", self.len());
        let Raw { offsets, offset_size, validity_offset, .. } = self.0;
        // There may be no offset at all, where there is no row.
        let offsets = offsets.get(offset_size * rows.start..offset_size * (rows.end + 1)).unwrap_or_default();
        Column(Raw { offsets, validity_offset: validity_offset + rows.start, ..self.0 })
    }

    /// Splits the column into so many [slices](Column::slice) of about as many rows each, in order: threads can share
    /// them.
    ///
    /// ```
    /// use porchsorrel_wkb::columns::{Facts, Rows};
    ///
    /// let rows = Rows::of(vec![Some(b"\x01\x02\0\0\0\0\0\0\0"); 1000])?;
    /// let mut all = Facts::default();
    /// std::thread::scope(|scope| {
    ///     let each: Vec<_> = rows.column().split(4).map(|it| scope.spawn(move || it.facts())).collect();
    ///     each.into_iter().try_for_each(|it| all.add(&it.join().unwrap()?))
    /// })?;
    /// assert_eq!((all.rows, all.accepted), (1000, 1000));
    /// # Ok::<(), porchsorrel_wkb::AllocError>(())
    /// ```
    ///
    /// # Panics
    ///
    /// If `columns` is 0.
    pub fn split(&self, columns: usize) -> impl DoubleEndedIterator<Item = Column<'a>> + ExactSizeIterator {
        assert!(columns > 0, "rows have to be in a column");
        let (whole, each, longer) = (*self, self.len() / columns, self.len() % columns);
        let begin = move |column: usize| each * column + column.min(longer);
        (0..columns).map(move |column| whole.slice(begin(column)..begin(column + 1)))
    }

    /// Gives the bytes of each row, or the status of a row without bytes: it is null, or has bad offsets.
    pub fn rows(&self) -> impl ExactSizeIterator<Item = Result<&'a [u8], Status>> {
        let (column, mut reach) = (self.0, 0);
        (0..self.len()).map(move |i| column.row(i, &mut reach).map_err(Status::of))
    }

    /// Gives what [`check`](crate::check::check) finds of each row, or its status.
    pub fn found(&self) -> impl ExactSizeIterator<Item = Result<Summary, Status>> + 'a {
        self.rows().map(|row| row.and_then(geometry).map(|(_, found)| found))
    }

    /// Returns the status of each row: whether it is a geometry, as [`check`](crate::check::check) finds it.
    pub fn check(&self) -> Result<Vec<Status>, AllocError> {
        let mut statuses = try_filled(0, self.len())?;
        wkb_raw_column_check(&self.0, &mut statuses);
        Ok(Status::all(statuses))
    }

    /// Returns what [`bounds`](crate::check::bounds) finds of each row: the bounds of no coordinate where it has none.
    pub fn bounds(&self) -> Result<(Vec<Bounds>, Vec<Status>), AllocError> {
        let (mut boxes, mut statuses) = (try_filled(Bounds::empty(), self.len())?, try_filled(0, self.len())?);
        wkb_raw_column_bounds(&self.0, &mut boxes, &mut statuses);
        Ok((boxes, Status::all(statuses)))
    }

    /// Returns what [`canonical`](crate::canon::canonical) makes of each row.
    pub fn write(&self, options: &WriteOptions) -> Result<Encodings, AllocError> {
        self.write_by(|_| *options)
    }

    /// Returns what [`canonical_with_srid`](crate::canon::canonical_with_srid) makes of each row.
    pub fn write_with_srids(&self, order: Endianness) -> Result<Encodings, AllocError> {
        self.write_by(|found| WriteOptions { endianness: order, form: Form::Ewkb { srid: found.srid } })
    }

    fn write_by(&self, options: impl Fn(&Summary) -> WriteOptions) -> Result<Encodings, AllocError> {
        // An encoding is at most an SRID longer than its row, and rows with bytes don't overlap.
        let room = self.rows().flatten().map(|it| it.len() + SRID_SIZE).sum();
        let (mut data, mut at, mut reach) = (try_filled(0, room)?, 0, 0);
        let (mut ends, mut statuses) = (try_filled(0, self.len())?, try_filled(Status::OK, self.len())?);
        for (i, (end, status)) in ends.iter_mut().zip(&mut statuses).enumerate() {
            match self.0.row(i, &mut reach).map_err(Status::of).and_then(geometry) {
                Ok((bytes, found)) => at += lay(bytes, &found, options(&found), &mut data[at..]),
                Err(why) => *status = why,
            }
            *end = at as u64;
        }
        data.truncate(at);
        Ok(Encodings { data, ends, statuses })
    }

    /// Returns the coordinates of each row. Words that the dimension doesn't name are left out, and a word that a
    /// geometry doesn't have is a NaN.
    pub fn coordinates(&self, dimension: Dimension) -> Result<Coordinates, AllocError> {
        let (mut row_ends, mut statuses) = (try_filled(0, self.len())?, try_filled(0, self.len())?);
        let asked = dimension.thousands();
        let mut lay = |mut out: LevelSlices<'_>| {
            let mut totals = Totals { coordinates: 0, rings: 0, singles: 0 };
            wkb_raw_column_coordinates(&self.0, asked, &mut out, &mut row_ends, &mut totals, &mut statuses);
            totals
        };
        // Without room the totals are counted alone.
        let totals = lay(LevelSlices { words: &mut [], ring_ends: &mut [], single_ends: &mut [] });
        let mut words = try_filled(0, dimension.width() * totals.coordinates as usize)?;
        let mut ring_ends = try_filled(0, totals.rings as usize)?;
        let mut single_ends = try_filled(0, totals.singles as usize)?;
        lay(LevelSlices { words: &mut words, ring_ends: &mut ring_ends, single_ends: &mut single_ends });
        // The same memory, since a word has the size of a number.
        let words = words.into_iter().map(f64::from_bits).collect();
        Ok(Coordinates { words, ring_ends, single_ends, row_ends, statuses: Status::all(statuses) })
    }
}

/// A row with what the check finds at its start.
#[inline(always)]
pub(super) fn geometry(bytes: &[u8]) -> Result<(&[u8], Summary), Status> {
    Ok((bytes, found_in(bytes).map_err(Status::of)?))
}

/// Rows of one's own, as a column takes them.
#[derive(Clone, Debug, PartialEq, Eq, Hash)]
pub struct Rows {
    data: Vec<u8>,
    offsets: Vec<u8>,
    validity: Vec<u8>,
}

impl Rows {
    /// Copies the rows; None is a null row.
    pub fn of<R: AsRef<[u8]>>(rows: impl IntoIterator<Item = Option<R>>) -> Result<Rows, AllocError> {
        let mut made = Rows { data: Vec::new(), offsets: try_filled(0, 8)?, validity: Vec::new() };
        for (row, bytes) in rows.into_iter().enumerate() {
            made.validity.try_resize(row / 8 + 1, 0)?;
            if let Some(bytes) = bytes {
                made.data.try_extend_from_slice(bytes.as_ref())?;
                made.validity[row / 8] |= 1 << (row % 8);
            }
            made.offsets.try_extend_from_slice(&(made.data.len() as u64).to_ne_bytes())?;
        }
        Ok(made)
    }

    /// Returns the rows as a column.
    pub fn column(&self) -> Column<'_> {
        Column(Raw { validity: &self.validity, ..Column::large_binary(&self.data, &self.offsets).0 })
    }
}

/// The encodings of rows, one after another. A row without one ends where it begins, and its status says why.
#[derive(Clone, Debug, Default, PartialEq, Eq, Hash)]
pub struct Encodings {
    /// The bytes of all encodings.
    pub data: Vec<u8>,
    /// Where each row ends in the data.
    pub ends: Vec<u64>,
    /// What became of each row.
    pub statuses: Vec<Status>,
}

impl Encodings {
    /// Returns the encoding of a row, where it has one.
    ///
    /// # Panics
    ///
    /// If there is no such row.
    #[must_use]
    pub fn row(&self, row: usize) -> Option<&[u8]> {
        let begin = if row == 0 { 0 } else { self.ends[row - 1] };
        self.statuses[row].is_ok().then(|| &self.data[begin as usize..self.ends[row] as usize])
    }

    /// Gives the encoding of each row, where it has one.
    pub fn rows(&self) -> impl ExactSizeIterator<Item = Option<&[u8]>> {
        (0..self.ends.len()).map(move |row| self.row(row))
    }
}
