// SPDX-License-Identifier: MIT OR Apache-2.0
//! Columns of geometries, as Arrow and GeoArrow have them: each call answers for all rows, and no row stops the others.
//!
//! ```
//! use porchsorrel_wkb::check::WkbType;
//! use porchsorrel_wkb::columns::{NotCollected, Rows, Status};
//! use porchsorrel_wkb::reader::Dimension;
//! use porchsorrel_wkb::writer::WriteOptions;
//!
//! let options = WriteOptions::default();
//! let point = b"\0\0\0\0\x01\x3f\xf0\0\0\0\0\0\0\x40\0\0\0\0\0\0\0";
//! let rows = Rows::of([Some(&point[..]), None, Some(&point[..20])])?;
//! let column = rows.column();
//! assert_eq!(column.check()?, [Status::OK, Status::NULL_ROW, Status::SHORT_POINT]);
//! assert_eq!(column.bounds()?.0[0].x.max(), 1.0);
//!
//! // The rows in little endian, by which equal geometries have equal bytes.
//! let keys = column.write(&options)?;
//! assert_eq!(keys.row(0).map(|it| it[0]), Some(1));
//!
//! // A multi point of the first row.
//! let points = column.slice(0..1).collect(WkbType::MultiPoint(Dimension::Xy), &options)?;
//! assert_eq!((&points[..9], &points[9..]), (&[1, 4, 0, 0, 0, 1, 0, 0, 0][..], keys.row(0).unwrap()));
//! # Ok::<(), NotCollected>(())
//! ```
//!
//! Bytes, offsets and validity bitmaps are read where they are. Only results are allocated, by their own rows, and a
//! copy of the words of [`Levels`]; if that fails, the call returns an [`AllocError`](crate::AllocError).
#![allow(clippy::missing_errors_doc)] // An `AllocError` needs no more than that.

mod collect;
mod column;
mod facts;
mod levels;
mod status;

pub use collect::NotCollected;
pub use column::{Column, Encodings, Rows};
pub use facts::Facts;
pub use levels::{Coordinates, Levels};
pub use status::Status;
