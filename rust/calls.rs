// SPDX-License-Identifier: MIT OR Apache-2.0
//! The calls of `c/wkb_raw.h`, whose comments say what they take: pointers that are not null and aligned, each with the
//! length of what is behind it. Nothing else of these sources is unsafe. This is a crate of its own, of what
//! `tools/erase` makes, and `rt`.

extern crate alloc;

/// Nothing: no call has an index that isn't below its count, as is proved.
macro_rules! below {
    ($i:expr, $count:expr) => {};
}
pub(crate) use below;

#[path = "out/whole"]
pub mod erased {
    #[path = "../../src/rt.rs"]
    pub mod rt;
    pub mod wkb_abi;
    pub mod wkb_bounds;
    pub mod wkb_c;
    pub mod wkb_check;
    pub mod wkb_geom;
    pub mod wkb_levels;
    pub mod wkb_plain;
    pub mod wkb_rewrite;
    pub mod wkb_sink;
    pub mod wkb_write;
}

use core::slice::{from_raw_parts as slice, from_raw_parts_mut as slice_mut};
use erased::*;
use wkb_abi::column::Column;
use wkb_abi::fault::WkbFault;
use wkb_abi::found::Found;
use wkb_abi::level_column::LevelColumn;
use wkb_abi::level_slices::LevelSlices;
use wkb_abi::options::Options;
use wkb_abi::parts::Part;
use wkb_abi::totals::Totals;
use wkb_bounds::Bounds;
use wkb_c as raw;

/// `wkb_raw_column`.
#[repr(C)]
pub struct RawColumn {
    bytes: *const u8,
    bytes_len: usize,
    offsets: *const u8,
    offsets_len: usize,
    offset_size: usize,
    validity: *const u8,
    validity_len: usize,
    validity_offset: usize,
}

/// `wkb_raw_level_slices`.
#[repr(C)]
pub struct RawLevelSlices {
    words: *mut u64,
    words_room: usize,
    ring_ends: *mut u64,
    ring_room: usize,
    single_ends: *mut u64,
    single_room: usize,
}

/// `wkb_raw_level_column`.
#[repr(C)]
pub struct RawLevelColumn {
    words: *const u64,
    word_count: usize,
    ring_ends: *const u64,
    ring_end_count: usize,
    rings: u64,
    single_ends: *const u64,
    single_end_count: usize,
    singles: u64,
    row_ends: *const u64,
    row_end_count: usize,
    rows: u64,
    validity: *const u8,
    validity_len: usize,
    validity_offset: usize,
}

impl RawColumn {
    #[inline(always)]
    unsafe fn column<'a>(&self) -> Column<'a> {
        Column {
            bytes: slice(self.bytes, self.bytes_len),
            offsets: slice(self.offsets, self.offsets_len),
            offset_size: self.offset_size,
            validity: slice(self.validity, self.validity_len),
            validity_offset: self.validity_offset,
        }
    }
}

macro_rules! calls {
    ($($name:ident($($argument:ident: $type:ty),* $(,)?) $(-> $status:ty)? { $($code:tt)* })*) => {$(
        #[no_mangle]
        pub unsafe extern "C" fn $name($($argument: $type),*) $(-> $status)? { $($code)* }
    )*};
}

calls! {
    wkb_raw_check(buf: *const u8, len: usize, found: &mut Found, fault: &mut WkbFault) -> u32 {
        raw::wkb_raw_check(slice(buf, len), found, fault)
    }
    wkb_raw_bounds(buf: *const u8, len: usize, bounds: &mut Bounds, fault: &mut WkbFault) -> u32 {
        raw::wkb_raw_bounds(slice(buf, len), bounds, fault)
    }
    wkb_raw_write(
        buf: *const u8, len: usize, options: &Options, out: *mut u8, room: usize, size: &mut u64, fault: &mut WkbFault,
    ) -> u32 {
        raw::wkb_raw_write(slice(buf, len), options, slice_mut(out, room), size, fault)
    }
    wkb_raw_same(
        a: *const u8, a_len: usize, b: *const u8, b_len: usize, equal: &mut u32, fault: &mut WkbFault, which: &mut u32,
    ) -> u32 {
        raw::wkb_raw_same(slice(a, a_len), slice(b, b_len), equal, fault, which)
    }
    wkb_raw_parts(
        buf: *const u8, len: usize, parts: *mut Part, room: usize, count: &mut u64, fault: &mut WkbFault,
    ) -> u32 {
        raw::wkb_raw_parts(slice(buf, len), slice_mut(parts, room), count, fault)
    }
    wkb_raw_next_part(buf: *const u8, len: usize, part: &mut Part) -> u32 {
        raw::wkb_raw_next_part(slice(buf, len), part)
    }
    wkb_raw_column_check(column: &RawColumn, statuses: *mut u8, rows: usize) {
        raw::wkb_raw_column_check(&column.column(), slice_mut(statuses, rows))
    }
    wkb_raw_column_found(
        column: &RawColumn, found: *mut Found, found_count: usize, statuses: *mut u8, rows: usize,
    ) {
        raw::wkb_raw_column_found(&column.column(), slice_mut(found, found_count), slice_mut(statuses, rows))
    }
    wkb_raw_column_bounds(column: &RawColumn, boxes: *mut Bounds, box_count: usize, statuses: *mut u8, rows: usize) {
        raw::wkb_raw_column_bounds(&column.column(), slice_mut(boxes, box_count), slice_mut(statuses, rows))
    }
    wkb_raw_column_parts(
        column: &RawColumn, parts: *mut Part, room: usize, ends: *mut u64, end_count: usize, statuses: *mut u8,
        rows: usize,
    ) {
        let (parts, ends) = (slice_mut(parts, room), slice_mut(ends, end_count));
        raw::wkb_raw_column_parts(&column.column(), parts, ends, slice_mut(statuses, rows))
    }
    wkb_raw_column_write(
        column: &RawColumn, options: &Options, out: *mut u8, room: usize, ends: *mut u64, end_count: usize,
        statuses: *mut u8, rows: usize,
    ) {
        let (out, ends) = (slice_mut(out, room), slice_mut(ends, end_count));
        raw::wkb_raw_column_write(&column.column(), options, out, ends, slice_mut(statuses, rows))
    }
    wkb_raw_collect(
        column: &RawColumn, rows: usize, kind: u32, dimension: u32, options: &Options, out: *mut u8, room: usize,
        size: &mut u64, fault: &mut WkbFault, row: &mut u64,
    ) -> u32 {
        raw::wkb_raw_collect(&column.column(), rows, kind, dimension, options, slice_mut(out, room), size, fault, row)
    }
    wkb_raw_column_coordinates(
        column: &RawColumn, dimension: u32, out: &RawLevelSlices, row_ends: *mut u64, row_count: usize,
        totals: &mut Totals, statuses: *mut u8, rows: usize,
    ) {
        let mut levels = LevelSlices {
            words: slice_mut(out.words, out.words_room),
            ring_ends: slice_mut(out.ring_ends, out.ring_room),
            single_ends: slice_mut(out.single_ends, out.single_room),
        };
        let (row_ends, statuses) = (slice_mut(row_ends, row_count), slice_mut(statuses, rows));
        raw::wkb_raw_column_coordinates(&column.column(), dimension, &mut levels, row_ends, totals, statuses)
    }
    wkb_raw_column_from_coordinates(
        column: &RawLevelColumn, kind: u32, dimension: u32, options: &Options, out: *mut u8, room: usize,
        ends: *mut u64, end_count: usize, statuses: *mut u8, rows: usize,
    ) {
        let levels = LevelColumn {
            words: slice(column.words, column.word_count),
            ring_ends: slice(column.ring_ends, column.ring_end_count),
            rings: column.rings,
            single_ends: slice(column.single_ends, column.single_end_count),
            singles: column.singles,
            row_ends: slice(column.row_ends, column.row_end_count),
            rows: column.rows,
            validity: slice(column.validity, column.validity_len),
            validity_offset: column.validity_offset,
        };
        let (out, ends) = (slice_mut(out, room), slice_mut(ends, end_count));
        raw::wkb_raw_column_from_coordinates(&levels, kind, dimension, options, out, ends, slice_mut(statuses, rows))
    }
}
