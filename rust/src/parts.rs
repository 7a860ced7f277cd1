// SPDX-License-Identifier: MIT OR Apache-2.0
//! The table of parts: a geometry, its rings and its members at every level, each before what is inside it.
//!
//! ```
//! use porchsorrel_wkb::check::WkbType;
//! use porchsorrel_wkb::parts::parts;
//! use porchsorrel_wkb::reader::Dimension;
//!
//! // A polygon of one ring of two coordinates.
//! let mut polygon = b"\x01\x03\0\0\0\x01\0\0\0\x02\0\0\0".to_vec();
//! polygon.extend([0.0_f64, 0.0, 4.0, 3.0].iter().flat_map(|it| it.to_le_bytes()));
//! let table = parts(&polygon)?;
//! assert_eq!((table[0].wkb_type, table[0].count), (Some(WkbType::Polygon(Dimension::Xy)), 1));
//! assert_eq!((table[1].wkb_type, table[1].offset, table[1].count), (None, 13, 2));
//! # Ok::<(), porchsorrel_wkb::error::WkbError>(())
//! ```
use crate::check::{check, Refused, WkbType};
use crate::error::WkbResult;
use crate::reader::Dimension;
use crate::rt::{try_filled, TryVec};
use crate::wkb_abi::parts::{lay_geometries, Part as Entry, PartPlace};
use crate::wkb_check::{NextPiece, Piece, RING};
use crate::wkb_geom::code::of_kind;
use crate::{AllocError, Endianness};
use alloc::vec::Vec;

/// A geometry, or a ring of a polygon. Places count bytes from the start of the input.
#[derive(Clone, Copy, Debug, PartialEq, Eq, Hash)]
pub struct Part {
    /// Its kind and dimension. None is a ring.
    pub wkb_type: Option<WkbType>,
    /// The dimension; a ring has its polygon's.
    pub dimension: Dimension,
    /// The order of its numbers; a ring has its polygon's.
    pub order: Endianness,
    /// Its own SRID.
    pub srid: Option<u32>,
    /// Where it begins.
    pub begin: usize,
    /// Where its own coordinates, rings or members begin.
    pub offset: usize,
    /// How many of these it has; a point has one coordinate, an empty point too.
    pub count: usize,
    /// Where it ends, with all that is inside it.
    pub end: usize,
    /// The index of the part behind all that is inside it.
    pub next: usize,
}

impl Part {
    fn of(entry: &Entry) -> Part {
        let dimension = Dimension::of_thousands(entry.dimension).unwrap_or(Dimension::Xy);
        Part {
            wkb_type: (entry.kind != RING).then(|| of_kind(entry.kind, dimension)),
            dimension,
            order: if entry.order == 0 { Endianness::BigEndian } else { Endianness::LittleEndian },
            srid: (entry.has_srid == 1).then_some(entry.srid),
            begin: entry.begin as usize,
            offset: entry.offset as usize,
            count: entry.count as usize,
            end: entry.end as usize,
            next: entry.next as usize,
        }
    }
}

/// Lists the parts of the geometry at the start of the bytes. Bytes after it are not looked at.
///
/// A table takes 64 bytes a part while it is made, beside the one that is returned.
///
/// # Errors
///
/// As [`read_wkb`](crate::reader::read_wkb) rejects the bytes; or an allocation fails. [`check`] says where the fault
/// is.
pub fn parts(bytes: &[u8]) -> WkbResult<Vec<Part>> {
    let found = check(bytes)?;
    let mut entries = try_filled(Entry::of(&Piece::outermost(bytes, &found), 0, 1), found.parts)?;
    lay_geometries(bytes, 1, &mut entries, PartPlace { index: 0, byte: 0 });
    let mut table = Vec::try_with_room(found.parts)?;
    table.extend(entries.iter().map(Part::of));
    Ok(table)
}

/// Lists the parts before the rejected one, in the same order. What is inside such a part isn't known, so it ends where
/// its rings or members begin, and the next part is the one behind it.
///
/// ```
/// use porchsorrel_wkb::{check::check, parts::parts_before};
///
/// // A collection of two members, of which the first is a collection of none; the second one's order byte is 2.
/// let bytes = b"\x01\x07\0\0\0\x02\0\0\0\x01\x07\0\0\0\0\0\0\0\x02";
/// let refused = check(bytes).unwrap_err();
/// let before = parts_before(bytes, &refused)?;
/// assert_eq!((before.len(), before[1].begin, before[1].end, refused.offset), (2, 9, 18, 18));
/// # Ok::<(), porchsorrel_wkb::AllocError>(())
/// ```
///
/// # Errors
///
/// An allocation fails.
pub fn parts_before(bytes: &[u8], refused: &Refused) -> Result<Vec<Part>, AllocError> {
    let mut found = Vec::try_with_room(refused.part.min(bytes.len()))?;
    let mut next = NextPiece { at: 0, rings: 0, order: Endianness::BigEndian, dimension: Dimension::Xy };
    while found.len() < refused.part {
        match next.take(bytes) {
            Some(piece) => found.push(Part::of(&Entry::of(&piece, piece.end(), found.len() + 1))),
            None => break,
        }
    }
    Ok(found)
}
