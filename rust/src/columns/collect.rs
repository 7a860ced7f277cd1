// SPDX-License-Identifier: MIT OR Apache-2.0
//! Rows of a column as one geometry.
use super::{Column, Status};
use crate::canon::lay;
use crate::check::{Cause, Refused, Summary, WkbType};
use crate::rt::{try_filled, AllocError, Vec};
use crate::wkb_check::check_member;
use crate::wkb_geom::code::{GEOMETRY_COLLECTION, MULTI_POINT};
use crate::wkb_geom::header::MAX_HEADER_SIZE;
use crate::wkb_geom::words::COUNT_SIZE;
use crate::wkb_sink::block::{lay_count, lay_header};
use crate::writer::WriteOptions;
use core::fmt;

/// Why the rows could not be collected: the first row that can't be a member, counted from 0.
#[derive(Clone, Copy, Debug, PartialEq, Eq, Hash)]
#[non_exhaustive]
pub enum NotCollected {
    /// There are 2^32 rows or more, which a count of four bytes doesn't hold.
    TooManyRows,
    /// The row's validity bit is 0.
    NullRow(usize),
    /// The row's offsets are bad, as [`Column::check`] finds them.
    BadOffsets(usize),
    /// The row is no geometry, or another one than the whole takes. Part and offset count from the row's own start.
    Refused(usize, Refused),
    /// An allocation failed.
    Memory(AllocError),
}

impl fmt::Display for NotCollected {
    fn fmt(&self, f: &mut fmt::Formatter<'_>) -> fmt::Result {
        match self {
            NotCollected::TooManyRows => Status::TOO_MANY_ROWS.fmt(f),
            NotCollected::NullRow(row) => write!(f, "row {row}: {}", Status::NULL_ROW),
            NotCollected::BadOffsets(row) => write!(f, "row {row}: {}", Status::BAD_OFFSETS),
            NotCollected::Refused(row, why) => write!(f, "row {row}: {why}"),
            NotCollected::Memory(why) => why.fmt(f),
        }
    }
}

impl From<AllocError> for NotCollected {
    fn from(why: AllocError) -> NotCollected {
        NotCollected::Memory(why)
    }
}

impl Column<'_> {
    /// Returns the one encoding under the options of the geometry of this type whose members are the geometries of all
    /// rows in order. Of a row only the value counts: its byte order and its SRID don't matter. A collection takes rows
    /// of any type.
    ///
    /// # Errors
    ///
    /// The first row that can't be a member, and why; or an allocation fails.
    ///
    /// # Panics
    ///
    /// If the type has no geometries as members.
    pub fn collect(&self, wkb_type: WkbType, options: &WriteOptions) -> Result<Vec<u8>, NotCollected> {
        assert!(wkb_type.kind() >= MULTI_POINT, "members of {wkb_type:?}");
        let count = u32::try_from(self.len()).map_err(|_| NotCollected::TooManyRows)?;
        // A member has no SRID, so its encoding is no longer than its row.
        let mut room = MAX_HEADER_SIZE + COUNT_SIZE;
        self.members(wkb_type).try_for_each(|it| it.map(|(_, found)| room += found.bytes))?;
        let mut data = try_filled(0, room)?;
        let header = lay_header(&mut data, 0, options, wkb_type);
        let mut at = lay_count(&mut data, header, options.endianness, count);
        for (bytes, found) in self.members(wkb_type).flatten() {
            at += lay(bytes, &found, options.inner(), &mut data[at..]);
        }
        data.truncate(at);
        Ok(data)
    }

    /// The geometry of each row, as a member of a geometry of this type.
    fn members(&self, whole: WkbType) -> impl Iterator<Item = Result<(&[u8], Summary), NotCollected>> {
        self.rows().enumerate().map(move |(row, bytes)| {
            let bytes = bytes.map_err(|status| match status {
                Status::NULL_ROW => NotCollected::NullRow(row),
                _ => NotCollected::BadOffsets(row),
            })?;
            let found = check_member(bytes).map_err(|why| NotCollected::Refused(row, why))?;
            let (kind, member) = (whole.kind(), found.wkb_type);
            let is_part = member.kind() + 3 == kind && member.dimension() == whole.dimension();
            let why = Refused { cause: Cause::IncorrectType, part: 0, offset: 0 };
            let taken = (kind == GEOMETRY_COLLECTION || is_part).then_some((bytes, found));
            taken.ok_or(NotCollected::Refused(row, why))
        })
    }
}
