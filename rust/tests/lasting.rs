// SPDX-License-Identifier: MIT OR Apache-2.0
//! The inputs of c/test/lasting.rows: one by one, by each way of writing, and as a column with null rows; and with
//! faults, where each target has to answer alike.
use porchsorrel_wkb::canon::{canonical, canonical_into, canonical_with_srid, same};
use porchsorrel_wkb::check::{bounds, check, Bounds, Cause, Refused, Summary, WkbType};
use porchsorrel_wkb::columns::*;
use porchsorrel_wkb::error::General;
use porchsorrel_wkb::geom::{CoordTrait, GeometryTrait, GeometryType, PointTrait, PolygonTrait};
use porchsorrel_wkb::parts::{parts, parts_before};
use porchsorrel_wkb::reader::{read_wkb, Dimension, Polygon, Wkb};
use porchsorrel_wkb::writer::{to_vec, write_geometry, write_to_slice, Out, SliceSink, VecSink, WriteOptions};

#[path = "shared/lasting.rs"]
mod shared;
use shared::{options, rows, summed, Row};

const DIMENSIONS: [Dimension; 4] = [Dimension::Xy, Dimension::Xyz, Dimension::Xym, Dimension::Xyzm];

impl Row {
    fn has_found(&self, found: &Summary) -> bool {
        let (dimension, srid) = (found.wkb_type.dimension(), found.srid.unwrap_or(0));
        let rest =
            [srid, found.srid.is_some().into(), found.wkb_type.kind(), dimension as u32, dimension.width() as u32];
        let rest: Vec<u64> = rest.into_iter().chain([u8::from(found.order).into()]).map(u64::from).collect();
        let sizes = [found.bytes, found.parts, found.coordinates].map(|it| it as u64);
        self.status == 0 && self.fields[..3] == sizes && self.fields[5..] == rest
    }

    fn has_refused(&self, why: &Refused) -> bool {
        let code = match why.cause {
            Cause::General(General::CodeOutOfRange(code)) => code,
            _ => 0,
        };
        let (end, len) = why.ends().unwrap_or_default();
        let fields = [why.part as u64, why.offset as u64, end, len as u64, code.into()];
        (why.status().number(), why.ends().is_some(), &fields[..]) == (self.status, self.status >= 48, &self.fields)
    }
}

fn sum_of(bounds: &Bounds) -> u32 {
    let ranges = [bounds.x, bounds.y, bounds.z, bounds.m];
    summed(&ranges.map(|it| [it.min().to_bits(), it.max().to_bits(), it.count].map(u64::to_le_bytes).concat()).concat())
}

fn sum_of_parts(input: &[u8]) -> u32 {
    let numbers = parts(input).unwrap().into_iter().flat_map(|it| {
        let places = [it.begin, it.end, it.offset, it.count, it.next].map(|it| (it as u64).to_le_bytes());
        let (kind, dimension) = (it.wkb_type.map_or(0, WkbType::kind), it.dimension);
        assert!(it.wkb_type.map_or(true, |it| it.dimension() == dimension));
        let header = [it.srid.unwrap_or(0), it.srid.is_some().into(), kind, dimension as u32];
        let rest = [dimension.width() as u32, u8::from(it.order).into()];
        [places.concat(), header.map(u32::to_le_bytes).concat(), rest.map(u32::to_le_bytes).concat()].concat()
    });
    summed(&numbers.collect::<Vec<u8>>())
}

fn coordinates(input: &[u8], dimension: Dimension) -> Coordinates {
    Rows::of([Some(input)]).unwrap().column().coordinates(dimension).unwrap()
}

fn sum_of_levels(input: &[u8]) -> u32 {
    let under = DIMENSIONS.map(|it| coordinates(input, it));
    let words = under.iter().flat_map(|it| it.words.iter().map(|it| it.to_bits()));
    let ends = under[0].ring_ends.iter().chain(&under[0].single_ends).copied();
    summed(&words.chain(ends).flat_map(u64::to_le_bytes).collect::<Vec<u8>>())
}

/// What is written of a view, by each sink.
fn written(wkb: &Wkb<'_>, options: &WriteOptions) -> Vec<u8> {
    let encoding = to_vec(wkb, options).unwrap();
    let mut slice = vec![0; encoding.len()];
    assert_eq!(write_to_slice(wkb, options, &mut slice).unwrap(), encoding.len());
    let (mut memory, mut out, mut writer) = (VecSink::new(), Out::new(Vec::new()), Vec::new());
    write_geometry(&mut memory, wkb, options).unwrap();
    write_geometry(&mut out, wkb, options).unwrap();
    write_geometry(&mut writer, wkb, options).unwrap();
    let mut again = vec![0; encoding.len()];
    write_geometry(&mut SliceSink::new(&mut again), wkb, options).unwrap();
    assert_eq!([&slice, &memory.into_vec(), &out.into_inner(), &writer, &again], [&encoding; 5]);
    encoding
}

/// The same geometry made of its coordinates, with the ends of all levels or of those that its kind needs.
fn made_of_coordinates(it: &Row, options: &WriteOptions, has_all: bool) -> Vec<u8> {
    let found = check(&it.input).unwrap();
    let dimension = found.wkb_type.dimension();
    let mut out = coordinates(&it.input[..found.bytes], dimension);
    let kind = found.wkb_type.kind();
    let has_points = [1, 4].contains(&kind);
    // Whatever NaNs an empty point has, those of one are written.
    if has_points {
        let points = out.words.chunks_mut(dimension.width());
        points.filter(|it| it.iter().all(|it| it.is_nan())).for_each(|it| it.fill(f64::from_bits(0x7ff8 << 48)));
    }
    let levels = Levels {
        words: &out.words,
        ring_ends: (has_all || !has_points).then_some(&out.ring_ends),
        single_ends: (has_all || [3, 6].contains(&kind)).then_some(&out.single_ends),
        row_ends: (has_all || kind >= 4).then_some(&out.row_ends),
    };
    let made = levels.encode(found.wkb_type, options).unwrap();
    assert_eq!(made.statuses, [Status::OK]);
    made.data
}

/// The bytes of its members, if it has geometries as members.
fn members<'a>(wkb: &Wkb<'a>) -> Option<Vec<&'a [u8]>> {
    match wkb.as_type() {
        GeometryType::MultiPoint(all) => Some(all.points().map(|it| it.buf()).collect()),
        GeometryType::MultiLineString(all) => Some(all.line_strings().map(|it| it.buf()).collect()),
        GeometryType::MultiPolygon(all) => Some(all.polygons().map(Polygon::buf).collect()),
        GeometryType::GeometryCollection(all) => Some(all.iter().map(Wkb::buf).collect()),
        _ => None,
    }
}

/// The numbers of all coordinates, by the iterators of views.
fn walk(wkb: &Wkb<'_>, found: &mut Vec<f64>) {
    match wkb.as_type() {
        GeometryType::Point(it) => found.extend(it.coord().map_or([f64::NAN; 2], |it| [it.x(), it.y()])),
        GeometryType::LineString(it) => found.extend(it.coords().flat_map(|it| [it.x(), it.y()])),
        GeometryType::Polygon(it) => {
            let rings = it.exterior().into_iter().chain(it.interiors());
            rings.for_each(|it| found.extend(it.coords().flat_map(|it| [0, 1].map(|n| it.nth(n).unwrap()))));
        }
        _ => members(wkb).unwrap().into_iter().for_each(|it| walk(&read_wkb(it).unwrap(), found)),
    }
}

/// The bits of numbers, and one NaN for all.
fn bits(words: &[f64]) -> Vec<u64> {
    words.iter().map(|it| if it.is_nan() { f64::NAN.to_bits() } else { it.to_bits() }).collect()
}

fn refused(it: &Row) {
    assert!(it.has_refused(&check(&it.input).unwrap_err()), "{:x?}", it.input);
    assert!(it.has_refused(&bounds(&it.input).unwrap_err()), "{:x?}", it.input);
    let text = read_wkb(&it.input).unwrap_err().to_string();
    assert_eq!(text, Wkb::try_new(&it.input).unwrap_err().to_string());
    assert_eq!(text, canonical(&it.input, &WriteOptions::default()).unwrap_err().to_string());
    assert_eq!(text, same(&it.input, &[]).unwrap_err().to_string());
    assert_eq!(text, parts(&it.input).unwrap_err().to_string());
    let (why, mut at) = (check(&it.input).unwrap_err(), 0);
    let before = parts_before(&it.input, &why).unwrap();
    assert!(before.iter().all(|it| it.begin == std::mem::replace(&mut at, it.end)));
    assert_eq!((before.len(), at), (why.part, why.offset), "{:x?}", it.input);
    // Inside a collection more a row may be nested too deep.
    let (row, collection) = (Rows::of([Some(&it.input)]).unwrap(), WkbType::GeometryCollection(Dimension::Xy));
    let why = row.column().collect(collection, &WriteOptions::default()).unwrap_err();
    assert!(matches!(why, NotCollected::Refused(0, why) if it.has_refused(&why) || why.part > 126));
}

/// Of an input without its end bytes are missing: so many as the error says, and those of the last part.
fn cut(input: &[u8]) {
    let why = check(input).unwrap_err();
    let is_cut = match why.ends() {
        Some((end, len)) => why.offset + len == input.len() && end > len as u64,
        None => why.status() == Status::SHORT_HEADER,
    };
    let text = canonical(input, &WriteOptions::default()).unwrap_err().to_string();
    assert!(is_cut && text == read_wkb(input).unwrap_err().to_string(), "{text} in {input:x?}");
}

#[test]
fn each_input() {
    let mut out = vec![];
    for it in rows() {
        if it.status != 0 {
            refused(&it);
            continue;
        }
        let (found, wkb) = (check(&it.input).unwrap(), read_wkb(&it.input).unwrap().try_clone().unwrap());
        assert!(it.has_found(&found), "{:x?}", it.input);
        assert_eq!((wkb.buf(), wkb.srid()), (&it.input[..found.bytes], found.srid));
        assert_eq!(sum_of(&bounds(&it.input).unwrap()), it.sums[8], "{:x?}", it.input);
        assert_eq!(sum_of_parts(&it.input), it.sums[9], "{:x?}", it.input);
        assert_eq!(sum_of_levels(&it.input), it.sums[10], "{:x?}", it.input);
        let mut walked = vec![];
        walk(&wkb, &mut walked);
        assert_eq!(bits(&walked), bits(&coordinates(&it.input, Dimension::Xy).words), "{:x?}", it.input);
        for (i, sum) in it.sums[..8].iter().enumerate() {
            let options = options(i, found.srid);
            canonical_into(&it.input, &options, &mut out).unwrap();
            let mut all = vec![canonical(&it.input, &options).unwrap(), written(&wkb, &options), out.clone()];
            assert!(same(&it.input, &all[0]).unwrap(), "{:x?}", it.input);
            if i % 4 == 1 {
                all.push(canonical_with_srid(&it.input, options.endianness).unwrap());
            }
            if let Some(members) = members(&wkb) {
                let rows = Rows::of(members.into_iter().map(Some)).unwrap();
                all.push(rows.column().collect(found.wkb_type, &options).unwrap());
            }
            if found.wkb_type.kind() < 7 {
                all.extend([true, false].map(|has_all| made_of_coordinates(&it, &options, has_all)));
            }
            assert!(all.iter().all(|it| summed(it) == *sum), "{:x?} as {options:?}", it.input);
        }
        (0..found.bytes).for_each(|len| cut(&it.input[..len]));
    }
}

#[test]
fn as_a_column() {
    let rows = rows();
    let made = Rows::of(rows.iter().flat_map(|it| [Some(&it.input), None])).unwrap();
    let column = made.column();
    let (found, (boxes, statuses)) = (column.found().collect::<Vec<_>>(), column.bounds().unwrap());
    assert_eq!(column.check().unwrap(), statuses);
    for (i, it) in rows.iter().enumerate() {
        assert_eq!((statuses[2 * i].number(), statuses[2 * i + 1]), (it.status, Status::NULL_ROW), "{:x?}", it.input);
        let is_found = found[2 * i].map_or_else(|why| why == statuses[2 * i], |found| it.has_found(&found));
        assert!(is_found, "{:x?}", it.input);
        assert_eq!(found[2 * i + 1], Err(Status::NULL_ROW));
        let expected = if it.status == 0 { it.sums[8] } else { sum_of(&Bounds::empty()) };
        assert_eq!((sum_of(&boxes[2 * i]), boxes[2 * i + 1]), (expected, Bounds::empty()), "{:x?}", it.input);
    }
    for number in 0..8 {
        let options = options(number, None);
        let own = number % 4 == 1;
        let written = if own { column.write_with_srids(options.endianness) } else { column.write(&options) }.unwrap();
        assert_eq!(written.statuses, statuses);
        for (row, it) in written.rows().step_by(2).zip(&rows) {
            assert_eq!(row.map(summed), it.sums.get(number).copied(), "{:x?}", it.input);
        }
        assert!(written.rows().skip(1).step_by(2).all(|it| it.is_none()));
    }
}

/// The levels of a column are those of its rows, each behind the ones before.
#[test]
fn levels_of_a_column() {
    let rows = rows();
    let made = Rows::of(rows.iter().flat_map(|it| [Some(&it.input), None])).unwrap();
    let sizes = |ends: &[u64]| [&[0], ends].concat().windows(2).map(|it| it[1] - it[0]).collect::<Vec<_>>();
    for dimension in DIMENSIONS {
        let all = made.column().coordinates(dimension).unwrap();
        let each: Vec<_> = rows.iter().map(|it| coordinates(&it.input, dimension)).collect();
        let words = each.iter().flat_map(|it| &it.words).map(|it| it.to_bits());
        assert!(words.eq(all.words.iter().map(|it| it.to_bits())));
        assert!(each.iter().flat_map(|it| sizes(&it.ring_ends)).eq(sizes(&all.ring_ends)));
        assert!(each.iter().flat_map(|it| sizes(&it.single_ends)).eq(sizes(&all.single_ends)));
        assert!(each.iter().flat_map(|it| [it.row_ends[0], 0]).eq(sizes(&all.row_ends)));
        assert!(each.iter().flat_map(|it| [it.statuses[0], Status::NULL_ROW]).eq(all.statuses));
    }
}

/// Facts of the inputs with two null rows behind each, of the whole column and of parts of it together.
#[test]
fn facts() {
    let rows = rows();
    let mut expected = Facts { rows: 3 * rows.len(), null_rows: 2 * rows.len(), ..Facts::default() };
    let mut types = std::collections::BTreeMap::new();
    for it in &rows {
        if it.status != 0 {
            expected.refused += 1;
            continue;
        }
        let [srid, has_srid, kind, dimension] = [5, 6, 7, 8].map(|i| it.fields[i] as u32);
        expected.accepted += 1;
        expected.bounds = expected.bounds.union(bounds(&it.input).unwrap());
        *types.entry(1000 * dimension + kind).or_insert(0) += 1;
        expected.srids.extend((has_srid == 1).then_some(srid));
        expected.without_srid += usize::from(has_srid == 0);
    }
    expected.srids.sort_unstable();
    expected.srids.dedup();
    let made = Rows::of(rows.iter().flat_map(|it| [Some(&it.input), None, None])).unwrap();
    let (column, statuses) = (made.column(), made.column().check().unwrap());
    for columns in [1, 2, 7] {
        let (mut all, mut each) = (Facts::default(), vec![]);
        for part in column.split(columns).rev() {
            assert!([0, 1].contains(&(part.len() - column.len() / columns)));
            all.add(&part.facts().unwrap()).unwrap();
            each = [part.check().unwrap(), each].concat();
        }
        assert!(all.types.drain(..).map(|(it, rows)| (it.iso_code(), rows)).eq(types.clone()));
        assert_eq!((&all, &each, column.split(columns).len()), (&expected, &statuses, columns));
    }
}

/// A number below another, by xorshift, which is the same on each target.
fn below(end: usize, state: &mut u64) -> usize {
    *state ^= *state << 13;
    *state ^= *state >> 7;
    *state ^= *state << 17;
    usize::try_from(*state % end as u64).unwrap()
}

/// An input of these, with up to three faults: a byte, a power of two as a count, or another input, and maybe no more.
fn hostile(rows: &[Row], state: &mut u64) -> Vec<u8> {
    let mut input = rows[below(rows.len(), state)].input.clone();
    for _ in 0..below(4, state) {
        let rest = input.split_off(below(60, state).min(input.len()));
        let (count, other) = ((1_u32 << below(32, state)) - below(2, state) as u32, &rows[below(rows.len(), state)]);
        let faults = [&[count as u8][..], &count.to_le_bytes(), &count.to_be_bytes(), &other.input];
        let fault = faults[below(4, state)];
        input.extend(fault);
        input.extend(rest.iter().skip(fault.len()).take(below(400, state)));
    }
    input
}

/// Inputs with faults, each by one of the options and under one dimension: what is rewritten is what a view and a
/// column write. checks/systems/targets_test compares the sums of all answers between targets.
#[test]
fn hostile_inputs() {
    let (rows, mut state, mut sum) = (rows(), 1, 0);
    for number in 1..=std::env::var("INPUTS").map_or(1000, |it| it.parse().unwrap()) {
        let input = hostile(&rows, &mut state);
        let (options, dimension) = (options(number % 8, Some(1)), DIMENSIONS[number % 4]);
        let key = canonical(&input, &options).map_err(|why| why.to_string());
        assert_eq!(key, read_wkb(&input).and_then(|it| to_vec(&it, &options)).map_err(|why| why.to_string()));
        let (made, own) = (Rows::of([Some(&input), None]).unwrap(), coordinates(&input, dimension));
        let (column, ends) = (made.column(), [&own.ring_ends[..], &own.single_ends, &own.row_ends]);
        assert_eq!(column.write(&options).unwrap().row(0), key.as_deref().ok());
        let [ring_ends, single_ends, row_ends] = ends.map(Some);
        let levels = Levels { words: &own.words, ring_ends, single_ends, row_ends };
        let encoded = levels.encode(WkbType::MultiPolygon(dimension), &options).unwrap().data;
        let collected = column.slice(0..1).collect(WkbType::GeometryCollection(dimension), &options);
        let told = format!("{sum} {key:?} {:?} {:?} {collected:?}", check(&input), column.facts());
        let numbers = own.words.iter().map(|it| it.to_bits()).chain(ends.concat());
        sum = summed(&[told.into_bytes(), encoded, numbers.flat_map(u64::to_le_bytes).collect()].concat());
        if number % 1000 == 0 {
            println!("answers to {number} inputs: {sum:08x}");
        }
    }
}
