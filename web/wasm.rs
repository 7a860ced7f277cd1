// SPDX-License-Identifier: MIT OR Apache-2.0
//! The calls that wkb.js makes, over the Rust crate. There is no `unsafe`: inputs and results are vectors of the desk,
//! and JavaScript is told where they are. Numbers are laid as f64, which holds each that fits 32 bits.
//!
//! The proofs are for a `usize` of 64 bits, and here it has 32. So web/build compiles with checks of overflow: where a
//! number didn't fit, the call would trap, and no answer would be wrong.

extern crate porchsorrel_wkb;

use porchsorrel_wkb::canon::{canonical_into, same};
use porchsorrel_wkb::check::{bounds, check, Bounds, Cause, Refused, WkbType};
use porchsorrel_wkb::columns::{Column, Status};
use porchsorrel_wkb::error::General;
use porchsorrel_wkb::geopackage::read_header;
use porchsorrel_wkb::parts::{parts, parts_before};
use porchsorrel_wkb::reader::Dimension;
use porchsorrel_wkb::writer::{Form, WriteOptions};
use porchsorrel_wkb::{AllocError, Endianness};

/// Why a call has no result: a number, of rejected bytes that of their `Status`; a text; and part, offset, bytes needed,
/// bytes there and code, each `NONE` where it has none.
struct Failure(u32, String, [f64; 5]);

const NONE: f64 = -1.0;
const NO_MEMORY: Failure = Failure(1, String::new(), [NONE; 5]);
const TOO_FEW_BITS: Failure = Failure(3, String::new(), [NONE; 5]);

impl From<AllocError> for Failure {
    fn from(_: AllocError) -> Failure {
        NO_MEMORY
    }
}

impl From<Refused> for Failure {
    fn from(why: Refused) -> Failure {
        let code = if let Cause::General(General::CodeOutOfRange(code)) = why.cause { code.into() } else { NONE };
        let (needed, has) = why.ends().map_or((NONE, NONE), |(end, len)| (end as f64, len as f64));
        Failure(why.status().number().into(), why.to_string(), [why.part as f64, why.offset as f64, needed, has, code])
    }
}

/// The numbers of kind (0 of a ring), dimension, order and SRID.
fn header(of: Option<WkbType>, dimension: Dimension, order: Endianness, srid: Option<u32>) -> [f64; 4] {
    let kind = of.map_or(0, WkbType::kind);
    [kind.into(), (dimension as u32).into(), order.byte().into(), srid.map_or(NONE, f64::from)]
}

/// The least and the greatest number of each axis, and how many there are.
fn ranges(it: &Bounds) -> impl Iterator<Item = f64> {
    [it.x, it.y, it.z, it.m].into_iter().flat_map(|it| [it.min(), it.max(), it.count as f64])
}

/// What the last call found: facts, which are few numbers and stay where they are, and what grows.
#[derive(Default)]
struct Results {
    facts: [f64; 18],
    numbers: Vec<f64>,
    bytes: Vec<u8>,
    statuses: Vec<Status>,
    offsets: [Vec<i32>; 3],
}

impl Results {
    /// The place and the number of items: of the facts, the numbers, the bytes, the statuses, or a level's offsets.
    fn at(&self, which: usize) -> (*const u8, usize) {
        fn place<T>(items: &[T]) -> (*const u8, usize) {
            (items.as_ptr().cast(), items.len())
        }
        match which {
            0 => place(&self.facts),
            1 => place(&self.numbers),
            2 => place(&self.bytes),
            3 => place(&self.statuses),
            _ => place(&self.offsets[which - 4]),
        }
    }

    fn tell(&mut self, facts: impl IntoIterator<Item = f64>) {
        self.facts.iter_mut().zip(facts).for_each(|(to, it)| *to = it);
    }

    fn lay(&mut self, numbers: &[f64]) -> Result<(), Failure> {
        self.numbers.try_reserve(numbers.len()).map_err(|_| NO_MEMORY)?;
        self.numbers.extend_from_slice(numbers);
        Ok(())
    }

    /// Keeps the ends of a level, which don't decrease, as offsets: a 0 comes first.
    fn keep_offsets(&mut self, level: usize, ends: &[u64]) -> Result<(), Failure> {
        let offsets = &mut self.offsets[level];
        i32::try_from(ends.last().copied().unwrap_or(0)).map_err(|_| NO_MEMORY)?;
        offsets.clear();
        offsets.try_reserve(ends.len() + 1).map_err(|_| NO_MEMORY)?;
        offsets.push(0);
        offsets.extend(ends.iter().map(|end| *end as i32));
        Ok(())
    }
}

/// The inputs, and the results of the last call.
#[derive(Default)]
pub struct Desk {
    inputs: [Vec<u8>; 3],
    results: Results,
}

/// The column whose data, offsets and validity are the inputs. Without validity `first` is -1, else its first bit.
fn column(inputs: &[Vec<u8>; 3], offset_size: u32, first: f64) -> Result<Column<'_>, Failure> {
    let [data, offsets, validity] = inputs;
    let column = if offset_size == 4 { Column::binary(data, offsets) } else { Column::large_binary(data, offsets) };
    if first < 0.0 {
        return Ok(column);
    }
    column.with_validity(validity, first as usize).ok_or(TOO_FEW_BITS)
}

/// The form by its number: in OWN_SRID a geometry has its own SRID.
fn options(order: u32, form: u32, srid: u32, own: Option<u32>) -> WriteOptions {
    let endianness = if order == 0 { Endianness::BigEndian } else { Endianness::LittleEndian };
    let srid = [None, own, Some(srid), None][form as usize];
    WriteOptions { endianness, form: if form == 0 { Form::Iso } else { Form::Ewkb { srid } } }
}

const OWN_SRID: u32 = 1;

macro_rules! calls {
    ($($(#[$doc:meta])* $name:ident($inputs:ident, $out:ident $(, $argument:ident: $type:ty)*) $code:block)*) => {$(
        $(#[$doc])*
        #[no_mangle]
        pub extern "C" fn $name(desk: &mut Desk $(, $argument: $type)*) -> u32 {
            fn call($inputs: &[Vec<u8>; 3], $out: &mut Results $(, $argument: $type)*) -> Result<(), Failure> $code
            desk.results.numbers.clear();
            let found = call(&desk.inputs, &mut desk.results $(, $argument)*);
            found.map_or_else(|Failure(number, text, facts)| {
                desk.results.bytes = text.into_bytes();
                desk.results.tell(facts);
                number
            }, |()| 0)
        }
    )*};
}

/// Makes the desk, which stays as long as the module.
#[no_mangle]
pub extern "C" fn wkb_desk() -> Box<Desk> {
    Box::default()
}

/// Makes room for so many bytes of an input, and returns where they are to be put; null without memory.
#[no_mangle]
pub extern "C" fn wkb_input(desk: &mut Desk, which: usize, length: usize) -> *mut u8 {
    let input = &mut desk.inputs[which];
    if input.try_reserve(length.saturating_sub(input.len())).is_err() {
        return core::ptr::null_mut();
    }
    input.resize(length, 0);
    input.as_mut_ptr()
}

/// Returns where a result is.
#[no_mangle]
pub extern "C" fn wkb_place(desk: &Desk, which: usize) -> *const u8 {
    desk.results.at(which).0
}

/// Returns how many items a result has.
#[no_mangle]
pub extern "C" fn wkb_size(desk: &Desk, which: usize) -> usize {
    desk.results.at(which).1
}

calls! {
    wkb_check(inputs, out) {
        let it = check(&inputs[0])?;
        let header = header(Some(it.wkb_type), it.wkb_type.dimension(), it.order, it.srid);
        Ok(out.tell(header.into_iter().chain([it.bytes, it.parts, it.coordinates].map(|it| it as f64))))
    }

    wkb_bounds(inputs, out) {
        Ok(out.tell(ranges(&bounds(&inputs[0])?)))
    }

    /// Lists the parts; of rejected bytes those before the rejected one.
    wkb_parts(inputs, out) {
        let (table, why) = match parts(&inputs[0]) {
            Ok(table) => (table, None),
            Err(_) => {
                let why = check(&inputs[0]).err().ok_or(NO_MEMORY)?;
                (parts_before(&inputs[0], &why)?, Some(why))
            }
        };
        for it in &table {
            out.lay(&header(it.wkb_type, it.dimension, it.order, it.srid))?;
            out.lay(&[it.begin, it.end, it.offset, it.count, it.next].map(|it| it as f64))?;
        }
        why.map_or(Ok(()), |why| Err(why.into()))
    }

    wkb_write(inputs, out, order: u32, form: u32, srid: u32) {
        let own = if form == OWN_SRID { check(&inputs[0])?.srid } else { None };
        let made = canonical_into(&inputs[0], &options(order, form, srid, own), &mut out.bytes);
        made.map_err(|_| check(&inputs[0]).err().map_or(NO_MEMORY, Failure::from))
    }

    /// Tells 1 if two inputs have one value, and else 0.
    wkb_equal(inputs, out) {
        check(&inputs[0])?;
        check(&inputs[1])?;
        let is_same = same(&inputs[0], &inputs[1]).map_err(|_| NO_MEMORY)?;
        Ok(out.tell([u8::from(is_same).into()]))
    }

    wkb_geopackage(inputs, out) {
        let it = read_header(&inputs[0]).map_err(|why| Failure(2, why.to_string(), [0.0, 0.0, NONE, NONE, NONE]))?;
        let axes = ["", "xy", "xyz", "xym"].iter().position(|axes| *axes == it.axes).unwrap_or(4) as u32;
        let facts = [it.size as f64, it.srs_id.into(), u8::from(it.is_empty).into(), axes.into()];
        let ends = it.envelope.into_iter().flat_map(|(least, greatest)| [least, greatest]);
        Ok(out.tell(facts.into_iter().chain(ends)))
    }

    wkb_column_check(inputs, out, size: u32, first: f64) {
        out.statuses = column(inputs, size, first)?.check()?;
        Ok(())
    }

    wkb_column_bounds(inputs, out, size: u32, first: f64) {
        let column = column(inputs, size, first)?;
        out.numbers.try_reserve(8 * column.len()).map_err(|_| NO_MEMORY)?;
        out.statuses.clear();
        out.statuses.try_reserve(column.len()).map_err(|_| NO_MEMORY)?;
        for row in column.rows() {
            let found = row.and_then(|bytes| bounds(bytes).map_err(|why| why.status()));
            out.statuses.push(found.map_or_else(|status| status, |_| Status::OK));
            let Bounds { x, y, z, m } = found.unwrap_or_default();
            out.numbers.extend([x.min(), x.max(), y.min(), y.max(), z.min(), z.max(), m.min(), m.max()]);
        }
        Ok(())
    }

    wkb_column_facts(inputs, out, size: u32, first: f64) {
        let it = column(inputs, size, first)?.facts()?;
        let counts = [it.rows, it.accepted, it.null_rows, it.refused, it.without_srid, it.types.len()];
        out.tell(counts.map(|it| it as f64).into_iter().chain(ranges(&it.bounds)));
        for (of, rows) in &it.types {
            out.lay(&[of.kind().into(), (of.dimension() as u32).into(), *rows as f64])?;
        }
        it.srids.iter().try_for_each(|it| out.lay(&[f64::from(*it)]))
    }

    wkb_column_coordinates(inputs, out, size: u32, first: f64, dimension: u32) {
        let dimensions = [Dimension::Xy, Dimension::Xyz, Dimension::Xym, Dimension::Xyzm];
        let it = column(inputs, size, first)?.coordinates(dimensions[dimension as usize])?;
        out.numbers = it.words;
        out.statuses = it.statuses;
        let levels = [it.row_ends, it.single_ends, it.ring_ends];
        levels.iter().enumerate().try_for_each(|(level, ends)| out.keep_offsets(level, ends))
    }

    wkb_column_write(inputs, out, size: u32, first: f64, order: u32, form: u32, srid: u32) {
        let (column, asked) = (column(inputs, size, first)?, options(order, form, srid, None));
        let it = if form == OWN_SRID { column.write_with_srids(asked.endianness)? } else { column.write(&asked)? };
        out.bytes = it.data;
        out.statuses = it.statuses;
        out.keep_offsets(0, &it.ends)
    }
}
