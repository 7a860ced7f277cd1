// SPDX-License-Identifier: MIT OR Apache-2.0
//! The canonical form: the same bytes for equal geometries, whatever order, codes and SRIDs they were read in.
//!
//! ```
//! use porchsorrel_wkb::canon::{canonical, same};
//! use porchsorrel_wkb::writer::WriteOptions;
//!
//! // The point (1, 2) in big endian with an SRID, and in little endian.
//! let stored = b"\0\x20\0\0\x01\0\0\x10\xe6\x3f\xf0\0\0\0\0\0\0\x40\0\0\0\0\0\0\0";
//! let point = b"\x01\x01\0\0\0\0\0\0\0\0\0\xf0\x3f\0\0\0\0\0\0\0\x40";
//! assert_eq!(canonical(stored, &WriteOptions::default())?, point);
//! assert!(same(stored, point)?);
//! # Ok::<(), porchsorrel_wkb::error::WkbError>(())
//! ```
pub use crate::wkb::canon::{canonical, canonical_with_srid, same};

use crate::check::{check, Summary, WkbType};
use crate::error::WkbResult;
use crate::rt::TryCopy;
use crate::wkb_geom::header::SRID_SIZE;
use crate::wkb_rewrite::{lay_encoding, lay_one_piece, lay_polygon, size_with_own_srid};
use crate::writer::{Form, WriteOptions};
use alloc::vec::Vec;

/// Puts what [`canonical`] returns into a vector, which keeps its memory for the next input. An error leaves it empty.
///
/// # Errors
///
/// As [`canonical`].
pub fn canonical_into(bytes: &[u8], options: &WriteOptions, out: &mut Vec<u8>) -> WkbResult<()> {
    let size = lay_grown(bytes, *options, out);
    out.truncate(*size.as_ref().unwrap_or(&0));
    size.map(drop)
}

/// Lays the encoding into a vector, which grows where it is too short, and returns its size.
#[inline]
fn lay_grown(bytes: &[u8], options: WriteOptions, out: &mut Vec<u8>) -> WkbResult<usize> {
    let found = check(bytes)?;
    // Only an SRID makes an encoding longer than its geometry.
    let srid = if matches!(options.form, Form::Ewkb { srid: Some(_) }) { SRID_SIZE } else { 0 };
    if out.len() < found.bytes + srid {
        out.try_resize(found.bytes + srid, 0)?;
    }
    Ok(lay(bytes, &found, options, out))
}

/// Lays the encoding where there is room for it, and returns its size.
pub(crate) fn lay(bytes: &[u8], found: &Summary, options: WriteOptions, out: &mut [u8]) -> usize {
    match found.wkb_type {
        WkbType::Point(_) | WkbType::LineString(_) => lay_one_piece(bytes, found, options, out),
        WkbType::Polygon(_) => lay_polygon(bytes, found, options, out),
        _ => return lay_encoding(bytes, found, options, out),
    }
    size_with_own_srid(bytes, found, options.form)
}
