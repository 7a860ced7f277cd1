// SPDX-License-Identifier: MIT OR Apache-2.0
//! Columns that lasting.rs doesn't have: bits and offsets that begin anywhere, are bad or are none; words that are no
//! whole coordinates; facts of zeros of both signs, and of many SRIDs; rows that are no members.
use porchsorrel_wkb::check::{Bounds, Cause, Range, Refused, WkbType};
use porchsorrel_wkb::columns::*;
use porchsorrel_wkb::reader::Dimension;
use porchsorrel_wkb::writer::{Form, WriteOptions};
use porchsorrel_wkb::Endianness;

const DIMENSIONS: [Dimension; 4] = [Dimension::Xy, Dimension::Xyz, Dimension::Xym, Dimension::Xyzm];
const COLLECTION: WkbType = WkbType::GeometryCollection(Dimension::Xy);
const POINTS: WkbType = WkbType::MultiPoint(Dimension::Xy);

fn encoded(words: &[f64], dimension: Dimension, endianness: Endianness) -> Vec<u8> {
    let options = WriteOptions { endianness, ..WriteOptions::default() };
    Levels { words, ..Levels::default() }.encode(WkbType::Point(dimension), &options).unwrap().data
}

fn point(x: f64, y: f64) -> Vec<u8> {
    encoded(&[x, y], Dimension::Xy, Endianness::LittleEndian)
}

fn small(offsets: &[i32]) -> Vec<u8> {
    offsets.iter().flat_map(|it| it.to_ne_bytes()).collect()
}

fn large(offsets: &[i64]) -> Vec<u8> {
    offsets.iter().flat_map(|it| it.to_ne_bytes()).collect()
}

/// Points in both orders, one of them cut, and a null row.
fn pieces() -> [Vec<u8>; 3] {
    let little = point(1.0, 2.0);
    [little.clone(), encoded(&[3.0, -4.0], Dimension::Xy, Endianness::BigEndian), little[..20].to_vec()]
}

fn rows() -> Rows {
    let [little, big, cut] = pieces();
    Rows::of([Some(little), None, Some(big), Some(cut)]).unwrap()
}

#[test]
fn offsets_and_validity() {
    let data = point(1.0, 2.0).repeat(3);
    let offsets = small(&[0, 21, 42, 63]);
    let column = Column::binary(&data, &offsets);
    let bad = large(&[0, 21, -1, 42, i64::MAX, 0]);
    let hostile = Column::large_binary(&data, &bad).check().unwrap();
    assert_eq!((hostile[0], &hostile[1..]), (Status::OK, &[Status::BAD_OFFSETS; 4][..]));
    assert!(column.with_validity(&[0xff], 6).is_none() && column.with_validity(&[0xff], usize::MAX).is_none());
}

/// What each call finds of a column.
fn results(column: &Column) -> impl PartialEq + std::fmt::Debug {
    let options = WriteOptions::default();
    let found: Vec<_> = column.found().collect();
    let collected = column.collect(COLLECTION, &options);
    let written = (column.write(&options), column.write_with_srids(Endianness::BigEndian));
    (column.check(), column.bounds(), found, written, column.coordinates(Dimension::Xy), collected, column.facts())
}

/// Rows behind so many bytes and bits: each call finds what it finds of the rows alone, with offsets of either width.
#[test]
fn in_any_place() {
    let rows = rows();
    for before in (0..20).chain([63, 64, 100]) {
        let data = [vec![1; before as usize], pieces().concat()].concat();
        let ends = [0, 21, 21, 42, 62].map(|it| it + before);
        let (narrow, wide) = (small(&ends), large(&ends.map(i64::from)));
        let bits = (0b1101_u128 << before).to_le_bytes();
        for column in [Column::binary(&data, &narrow), Column::large_binary(&data, &wide)] {
            let column = column.with_validity(&bits, before as usize).unwrap();
            assert_eq!(results(&column), results(&rows.column()), "behind {before}");
        }
    }
}

#[test]
fn no_rows() {
    let one = small(&[1]);
    let none = [Column::binary(&[7], &[]), Column::binary(&[7], &one), Column::large_binary(&[], &one)];
    let made = Rows::of([None::<&[u8]>; 0]).unwrap();
    for column in none.into_iter().chain([made.column(), rows().column().slice(2..2)]) {
        assert_eq!((column.check(), column.bounds()), (Ok(vec![]), Ok((vec![], vec![]))));
        assert_eq!((column.found().len(), column.is_empty(), column.facts()), (0, true, Ok(Facts::default())));
        assert_eq!(column.write(&WriteOptions::default()), Ok(Encodings::default()));
        assert_eq!(column.coordinates(Dimension::Xy), Ok(Coordinates::default()));
        assert_eq!(column.collect(POINTS, &WriteOptions::default()), Ok(vec![1, 4, 0, 0, 0, 0, 0, 0, 0]));
    }
}

/// Words that are no whole number of coordinates: no row is written, whichever levels have ends.
#[test]
fn words_without_a_whole_coordinate() {
    for dimension in DIMENSIONS {
        let width = dimension.width();
        let words = vec![1.0; 3 * width];
        for count in (1..words.len()).filter(|it| it % width != 0) {
            let levels = Levels { words: &words[..count], ..Levels::default() };
            let encode = |levels: Levels, wkb_type: fn(Dimension) -> WkbType| {
                let made = levels.encode(wkb_type(dimension), &WriteOptions::default()).unwrap();
                (made.statuses, made.data)
            };
            let bad = |rows| (vec![Status::BAD_LEVELS; rows], vec![]);
            assert_eq!(encode(levels, WkbType::Point), bad(count / width + 1), "{count} words");
            assert_eq!(encode(Levels { ring_ends: Some(&[1]), ..levels }, WkbType::LineString), bad(1));
            assert_eq!(encode(Levels { row_ends: Some(&[0, 1]), ..levels }, WkbType::MultiPoint), bad(2));
        }
    }
}

fn bits(range: &Range) -> (u64, u64, u64) {
    (range.min().to_bits(), range.max().to_bits(), range.count)
}

/// The bounds of all rows are those of the ordinates that a dimension has, with -0 below +0 in any order of the rows.
#[test]
fn bounds_of_all() {
    for dimension in DIMENSIONS {
        for words in [[0.0, -0.0, f64::NAN], [f64::NAN, -0.0, 0.0]] {
            let points = words.map(|it| Some(encoded(&vec![it; dimension.width()], dimension, Endianness::BigEndian)));
            let Bounds { x, y, z, m } = Rows::of(points).unwrap().column().facts().unwrap().bounds;
            for (range, has) in [(x, true), (y, true), (z, dimension.has_z()), (m, dimension.has_m())] {
                let wanted = if has { (-0.0, 0.0, 2) } else { (f64::INFINITY, f64::NEG_INFINITY, 0) };
                assert_eq!(bits(&range), (f64::to_bits(wanted.0), f64::to_bits(wanted.1), wanted.2), "{dimension:?}");
            }
        }
    }
}

/// Facts of two points, of SRIDs in and out of order, and of a row that begins inside another.
#[test]
fn facts_of_many_rows() {
    let srids = |count: u32| (0..count).map(move |it| it * 7919 % count);
    let point = |srid: u32| [b"\x01\x01\0\0\x20", &srid.to_le_bytes()[..], &[0; 16]].concat();
    let made = Rows::of(srids(1000).chain(srids(500)).map(|it| Some(point(it)))).unwrap();
    let facts = made.column().facts().unwrap();
    assert_eq!((facts.rows, facts.without_srid, facts.types[0].1), (1500, 0, 1500));
    assert_eq!(facts.srids, (0..1000).collect::<Vec<_>>());
    let data = [point(5), point(4)].concat();
    let offsets = large(&[0, 25, 50, 25, 50]);
    let facts = Column::large_binary(&data, &offsets).facts().unwrap();
    assert_eq!((facts.rows, facts.accepted, facts.refused, facts.srids), (4, 2, 0, vec![4, 5]));
}

#[test]
fn slices() {
    let (data, offsets) = (point(1.0, 2.0).repeat(3), small(&[0, 21, 42, 63]));
    let column = Column::binary(&data, &offsets);
    assert_eq!((column.slice(3..3).len(), Column::binary(&data, &[]).split(2).map(|it| it.len()).sum()), (0, 0_usize));
    // A slice is written in memory for its own rows, and where offsets decrease, in enough.
    let written = |column: Column| column.write(&WriteOptions::default()).unwrap().data;
    assert!(written(column.slice(2..3)).capacity() <= 25);
    assert_eq!(written(Column::binary(&data, &small(&[42, 63, 21]))), data[..21]);
}

#[test]
fn rows_that_are_no_members() {
    let options = WriteOptions { endianness: Endianness::BigEndian, form: Form::Iso };
    let (data, rows) = (point(1.0, 2.0), rows());
    let null = rows.column().collect(POINTS, &options).unwrap_err();
    assert_eq!((null, null.to_string()), (NotCollected::NullRow(1), "row 1: the row is null".to_string()));
    let bad = Column::binary(&data, &small(&[0, 21, 20])).collect(POINTS, &options).unwrap_err();
    assert_eq!(bad, NotCollected::BadOffsets(1));
    assert!(bad.to_string().starts_with("row 1: the row's offsets are negative"), "{bad}");
    let cut = Column::binary(&data, &small(&[0, 21, 21])).collect(COLLECTION, &options).unwrap_err();
    assert_eq!(cut.to_string(), "row 1: the input ends inside a header or before a count, at byte 0 (part 0)");
    let why = Refused { cause: Cause::IncorrectType, part: 0, offset: 0 };
    for wkb_type in [WkbType::MultiLineString(Dimension::Xy), WkbType::MultiPoint(Dimension::Xyz)] {
        assert_eq!(rows.column().collect(wkb_type, &options), Err(NotCollected::Refused(0, why)));
    }
    // Collections in one another, as many as may be.
    let deep = [b"\x01\x07\0\0\0\x01\0\0\0".repeat(127), b"\x01\x07\0\0\0\0\0\0\0".to_vec()].concat();
    let why = Rows::of([Some(deep)]).unwrap().column().collect(COLLECTION, &options).unwrap_err().to_string();
    assert_eq!(why, "row 0: a collection is inside 128 others, at byte 1143 (part 127)");
    assert_eq!(NotCollected::TooManyRows.to_string(), "there are more rows than a count of four bytes holds");
}

#[test]
#[cfg(panic = "unwind")]
fn calls_that_panic() {
    let (none, options) = (Column::binary(b"", &[]), WriteOptions::default());
    let calls: [(&str, &dyn Fn()); 4] = [
        ("members of Polygon(Xy)", &|| drop(none.collect(WkbType::Polygon(Dimension::Xy), &options))),
        ("rows of GeometryCollection(Xy)", &|| drop(Levels::default().encode(COLLECTION, &options))),
        ("rows 1..2 of 0", &|| assert!(none.slice(1..2).is_empty())),
        ("rows have to be in a column", &|| assert_eq!(none.split(0).len(), 0)),
    ];
    for (text, call) in calls {
        let panic = std::panic::catch_unwind(std::panic::AssertUnwindSafe(call)).unwrap_err();
        let said = panic.downcast_ref::<String>().cloned().or(panic.downcast_ref::<&str>().map(|it| it.to_string()));
        assert_eq!(said.as_deref(), Some(text));
    }
}
