//! A caller's own geometries, as bytes, and what can't be written: then nothing is, and no sink has failed.

use crate::rt::{io, Fail};
use crate::wkb::error::{General, WkbError, WkbResult};
use crate::wkb::geom::*;
use crate::wkb::writer::*;
use crate::wkb::Endianness;
use crate::wkb_cases::reading::{answer_to, read, Outcome};
use crate::wkb_cases::spelled::{bytes, Spelled};
use crate::wkb_cases::support::*;
use crate::wkb_tests::kinds::{LITTLE, RECT};
use crate::wkb_tests::sinks::{LimitedSink, LimitedWriter, Limits};

/// EWKB, little endian, with this SRID.
fn ewkb(srid: Option<u32>) -> WriteOptions {
    WriteOptions { endianness: Endianness::LittleEndian, form: Form::Ewkb { srid } }
}

fn empty_point(dim: Dimensions) -> Point<'static> {
    Point::empty(dim).unwrap()
}

/// The encoding of a geometry, which is as long as its size function says.
pub fn encoding_of<G: GeometryTrait>(geometry: &G) -> Result<Vec<u8>, Fail> {
    let mut sink = VecSink::new();
    write_geometry(&mut sink, geometry, &LITTLE)?;
    let encoding = sink.into_vec();
    assert_eq!(geometry_wkb_size_with(geometry, &LITTLE)?, encoding.len());
    Ok(encoding)
}

// The cases empty-point, written-nans and ewkb-empty, and of unknown-dimensions the dimensions with a name.
#[test]
fn points() -> Result<(), Fail> {
    let nans = [0xfff8_0000_0000_0001; 2];
    for (point, options, text) in [
        (empty_point(Dimensions::Xy), LITTLE, "01 01000000 000000000000f87f 000000000000f87f"),
        (point_of(Dimensions::Xy, &nans)?, LITTLE, "01 01000000 010000000000f8ff 010000000000f8ff"),
        (empty_point(Dimensions::Xyz), ewkb(None), "01 01000080 000000000000f87f 000000000000f87f 000000000000f87f"),
        (point_of(Dimensions::Unknown(2), &[ONE, TWO])?, LITTLE, "01 01000000 P"),
        (point_of(Dimensions::Unknown(3), &[ONE, TWO, THREE])?, LITTLE, "01 e9030000 P 0000000000000840"),
        (
            point_of(Dimensions::Unknown(4), &[ONE, TWO, THREE, 0])?,
            LITTLE,
            "01 b90b0000 P 0000000000000840 0000000000000000",
        ),
    ] {
        let mut sink = VecSink::new();
        write_point(&mut sink, &point, &options)?;
        assert_eq!(sink.into_vec().as_slice(), bytes(text)?.as_slice());
    }
    Ok(())
}

// The cases rect-sizes and ewkb-sizes. Of corners past Xy, x and y alone are written.
#[test]
fn rects() -> Result<(), Fail> {
    for (dim, min, max) in [
        (Dimensions::Xy, &[0, 0][..], &[ONE, TWO][..]),
        (Dimensions::Xyz, &[0, 0, THREE], &[ONE, TWO, THREE]),
        (Dimensions::Xym, &[0, 0, THREE], &[ONE, TWO, ONE]),
        (Dimensions::Xyzm, &[0, 0, THREE, ONE], &[ONE, TWO, THREE, TWO]),
        (Dimensions::Unknown(4), &[0, 0, ONE, ONE], &[ONE, TWO, TWO, TWO]),
    ] {
        let rect = rect_of(coord_of(dim, min)?, coord_of(dim, max)?)?;
        let mut sink = VecSink::new();
        write_rect(&mut sink, &rect, &LITTLE)?;
        assert_eq!(sink.into_vec().as_slice(), bytes(RECT)?.as_slice());
        let size = |options| geometry_wkb_size_with(&Geometry::Rect(rect), &options).unwrap();
        assert_eq!((rect_wkb_size(&rect)?, size(ewkb(Some(4326))), size(ewkb(None))), (93, 97, 93));
    }
    Ok(())
}

// Of the case line-triangle the collection.
#[test]
fn line_and_rect() -> Result<(), Fail> {
    let (origin, corner) = (coord_of(Dimensions::Xy, &[0, 0])?, coord_of(Dimensions::Xy, &[ONE, TWO])?);
    let (line, rect) = (Geometry::Line(line_of(corner, corner)?), Geometry::Rect(rect_of(origin, corner)?));
    let encoding = encoding_of(&collection_of_two(Dimensions::Xy, line, rect)?)?;
    let mut expected = bytes("01 07000000 02000000 01 02000000 02000000 P P")?;
    expected.spell(RECT)?;
    assert_eq!(encoding.as_slice(), expected.as_slice());
    assert_eq!(encoding.len(), 143);
    Ok(())
}

// The case plain-129: what is written is too deep to be read.
#[test]
fn nested() -> Result<(), Fail> {
    let mut geometry = Geometry::Point(point_of(Dimensions::Xy, &[ONE, TWO])?);
    for _level in 0..129 {
        geometry = Geometry::GeometryCollection(GeometryCollection::new(Dimensions::Xy, vec![geometry]));
    }
    let encoding = encoding_of(&geometry)?;
    assert_eq!(encoding.len(), 1182);
    assert!(answer_to(&encoding) == Outcome::TooDeep(128));
    Ok(())
}

/// Whether a point of five words is the reason.
fn is_refused<T>(answer: WkbResult<T>) -> bool {
    matches!(answer, Err(WkbError::General(General::UnsupportedDimensions(5))))
}

/// Tries a point of five words over a sink, which has to reject it and not to fail.
fn refuses<S: Sink>(mut sink: S) -> Result<S, Fail> {
    let point = Geometry::Point(point_of(Dimensions::Unknown(5), &[ONE, TWO, 0, 0, 0])?);
    assert!(is_refused(geometry_wkb_size_with(&point, &LITTLE)));
    assert!(is_refused(write_geometry(&mut sink, &point, &LITTLE)));
    assert!(!sink.failed());
    Ok(sink)
}

#[test]
fn unknown_dimensions() -> Result<(), Fail> {
    assert!(refuses(VecSink::new())?.into_vec().is_empty());
    let mut room = [7; 128];
    assert_eq!(refuses(SliceSink::new(&mut room))?.len(), 0);
    assert_eq!(room, [7; 128]);
    assert_eq!(refuses(Out::new(Spelled::new()))?.into_inner().len(), 0);
    assert_eq!(refuses(Out::new(LimitedWriter::new(usize::MAX, Some(1))))?.into_inner().writes, 0);
    for (puts, most) in [(0, 128), (128, 0), (128, 1)] {
        assert_eq!(refuses(LimitedSink::new(Limits { puts, most, room: 128 }))?.taken.len(), 0);
    }
    let members = [Dimensions::Xy, Dimensions::Unknown(5)].map(|dim| Geometry::Point(empty_point(dim)));
    let both = Geometry::GeometryCollection(GeometryCollection::new(Dimensions::Xy, members.into()));
    assert!(is_refused(geometry_wkb_size_with(&both, &LITTLE)));
    let mut sink = VecSink::new();
    assert!(is_refused(write_geometry(&mut sink, &both, &LITTLE)));
    assert!(!sink.failed() && sink.into_vec().is_empty());
    Ok(())
}

// Each put of `Out` is one write, of which a few bytes are taken, or none if it is interrupted.
#[test]
fn one_write_a_put() -> Result<(), Fail> {
    let mut out = Out::new(LimitedWriter::new(3, Some(3)));
    assert_eq!((out.put(&[1, 2])?, out.put(&[3, 4, 5, 6, 7])?), (2, 3));
    assert!(matches!(out.put(&[8]), Err(why) if why.kind() == io::ErrorKind::Interrupted));
    assert!(out.failed());
    let writer = out.into_inner();
    assert_eq!((writer.writes, writer.taken.as_slice()), (3, &[1, 2, 3, 4, 5][..]));
    Ok(())
}

/// Headers of each kind that has parts, with a count of seventy, and one of those parts: longer than any block.
const SEVENTY: [(&str, &str); 6] = [
    ("01 02000000 46000000", "P"),
    ("01 03000000 46000000", "01000000 P"),
    ("01 04000000 46000000", "01 01000000 P"),
    ("01 05000000 46000000", "01 02000000 01000000 P"),
    ("01 06000000 46000000", "01 03000000 01000000 01000000 P"),
    ("01 07000000 46000000", "01 01000000 P"),
];

/// Whether a sink that fails at its second put takes the whole geometry.
fn is_one_put<G: GeometryTrait>(geometry: &G, encoding: &[u8]) -> bool {
    let mut sink = LimitedSink::new(Limits { puts: 1, most: usize::MAX, room: usize::MAX });
    write_geometry(&mut sink, geometry, &LITTLE).is_ok() && sink.taken.as_slice() == encoding
}

// What was read in the form that is written is lent to the sink as it stands, and not written by its parts; the view of
// its kind, too, if that can lend its bytes.
#[test]
fn lent_in_one_put() -> Result<(), Fail> {
    for (header, part) in SEVENTY {
        let input = bytes(&(header.to_owned() + &part.repeat(70)))?;
        let (wkb, encoding) = (read(input.as_slice())?, input.as_slice());
        assert!(is_one_put(&wkb, encoding), "{header}");
        let is_lent = match wkb.as_type() {
            GeometryType::LineString(view) => is_one_put(view, encoding),
            GeometryType::MultiPoint(view) => is_one_put(view, encoding),
            GeometryType::MultiLineString(view) => is_one_put(view, encoding),
            GeometryType::MultiPolygon(view) => is_one_put(view, encoding),
            _ => true,
        };
        assert!(is_lent, "{header}");
    }
    Ok(())
}
