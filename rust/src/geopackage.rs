// SPDX-License-Identifier: MIT OR Apache-2.0
//! The header before the geometry of a GeoPackage's blob (OGC 12-128r18, clause 2.1.3).
//!
//! ```
//! use porchsorrel_wkb::geopackage::read_header;
//! use porchsorrel_wkb::reader::read_wkb;
//!
//! // The point (1, 2) with SRID 4326, without an envelope.
//! let blob = b"GP\0\0\0\0\x10\xe6\0\0\0\0\x01\x3f\xf0\0\0\0\0\0\0\x40\0\0\0\0\0\0\0";
//! let header = read_header(blob)?;
//! assert_eq!((header.srs_id, header.axes), (4326, ""));
//! assert_eq!(read_wkb(&blob[header.size..])?.buf(), &blob[8..]);
//! # Ok::<(), Box<dyn std::error::Error>>(())
//! ```
use crate::wkb_clients::geopackage as proved;
use crate::wkb_geom::words::u64_at;
use core::fmt;

/// What stands before the geometry of a blob.
#[derive(Clone, Copy, Debug, PartialEq)]
pub struct Header {
    /// Its length in bytes: where the geometry begins.
    pub size: usize,
    /// The SRID; 0 and -1 stand for undefined ones.
    pub srs_id: i32,
    /// Whether the geometry is said to be empty.
    pub is_empty: bool,
    /// The ordinates of its envelope: `""`, `"xy"`, `"xyz"`, `"xym"` or `"xyzm"`.
    pub axes: &'static str,
    /// Of each of them the least and the greatest number, as the header says, and then zeros. Those of the geometry may
    /// be others.
    pub envelope: [(f64, f64); 4],
}

/// Why a blob has no header, or no WKB behind it.
#[derive(Clone, Copy, Debug, PartialEq, Eq, Hash)]
pub struct NoHeader(&'static str);

/// Reads the header at the start of a blob.
///
/// # Errors
///
/// The blob doesn't begin with "GP" and version 0; its header is cut off, or has flags or an envelope of no meaning; or
/// its geometry is an extended one, which is no WKB.
pub fn read_header(blob: &[u8]) -> Result<Header, NoHeader> {
    let it = proved::read_header(blob).ok_or_else(|| NoHeader(why_not(blob)))?;
    let axes = ["", "xy", "xyz", "xym", "xyzm"][usize::from(it.envelope)];
    let number = |at| f64::from_bits(u64_at(blob, at, it.order));
    let mut envelope = [(0.0, 0.0); 4];
    for (n, range) in envelope.iter_mut().enumerate().take(axes.len()) {
        *range = (number(8 + 16 * n), number(16 + 16 * n));
    }
    let size = proved::start_behind(it.envelope);
    Ok(Header { size, srs_id: it.srs as i32, is_empty: it.empty, axes, envelope })
}

/// What is wrong with a blob that has no header.
fn why_not(blob: &[u8]) -> &'static str {
    const CUT: &str = "the input ends inside its GeoPackage header";
    match *blob {
        [b'G', b'P', version, flags, _, _, _, _, ..] => match (version, flags & 0xe0, flags & 0x0e) {
            (1.., _, _) => "unknown version of a GeoPackage header",
            (_, later, _) if later & 0x20 > 0 => "an extended GeoPackage geometry, which is not WKB",
            (_, 1.., _) => "unknown flags in a GeoPackage header",
            (_, _, 9..) => "unknown envelope in a GeoPackage header",
            _ => CUT,
        },
        [b'G', b'P', ..] => CUT,
        _ => "the input has no GeoPackage header",
    }
}

impl fmt::Display for NoHeader {
    fn fmt(&self, f: &mut fmt::Formatter<'_>) -> fmt::Result {
        f.pad(self.0)
    }
}
