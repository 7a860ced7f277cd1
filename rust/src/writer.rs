// SPDX-License-Identifier: MIT OR Apache-2.0
//! The writers, the sizes of what they write, and the sinks that they write into.
//!
//! ```
//! use porchsorrel_wkb::geom::{Dimensions, LineString};
//! use porchsorrel_wkb::writer::{line_string_wkb_size, write_line_string, WriteOptions};
//!
//! let words = [1.0_f64, 2.0, 3.0, 4.0].map(f64::to_bits);
//! let line = LineString::new(Dimensions::Xy, &words).expect("whole coordinates");
//! let mut out = Vec::new();
//! write_line_string(&mut out, &line, &WriteOptions::default())?;
//! assert_eq!(out.len(), line_string_wkb_size(&line)?);
//! # Ok::<(), porchsorrel_wkb::error::WkbError>(())
//! ```
//!
//! A writer takes a `Vec<u8>`, a file or any other [`Write`](io::Write). If an allocation fails, [`to_vec`] and a
//! [`VecSink`] return an error, as a `Vec` by itself doesn't.
pub use crate::wkb::writer::{
    geometry_collection_wkb_size, geometry_wkb_size, geometry_wkb_size_with, line_string_wkb_size, line_wkb_size,
    multi_line_string_wkb_size, multi_point_wkb_size, multi_polygon_wkb_size, point_wkb_size, polygon_wkb_size,
    rect_wkb_size, to_vec, triangle_wkb_size, write_geometry, write_geometry_collection, write_line, write_line_string,
    write_multi_line_string, write_multi_point, write_multi_polygon, write_point, write_polygon, write_rect,
    write_to_slice, write_triangle, Form, Out, Sink, SliceSink, VecSink, WriteOptions,
};

use crate::rt::io;
use core::fmt;

/// Any writer, as it is. An interrupted write is tried again.
impl<W: io::Write> Sink for W {
    #[inline(always)]
    fn put(&mut self, bytes: &[u8]) -> io::Result<usize> {
        loop {
            match self.write(bytes) {
                Err(why) if why.kind() == io::ErrorKind::Interrupted => {}
                result => return result,
            }
        }
    }

    /// Returns false: a writer doesn't tell. An [`Out`] over it does.
    fn failed(&self) -> bool {
        false
    }
}

macro_rules! debug {
    ($($sink:ident $(<$of:tt>)?)*) => {$(
        impl$(<$of>)? fmt::Debug for $sink$(<$of>)? {
            fn fmt(&self, f: &mut fmt::Formatter<'_>) -> fmt::Result {
                f.debug_struct(stringify!($sink)).finish_non_exhaustive()
            }
        }
    )*};
}

debug! { Out<W> SliceSink<'a> VecSink }
