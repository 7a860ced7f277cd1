// SPDX-License-Identifier: MIT OR Apache-2.0
//! What users meet first: a program in the manner of the crate `wkb`, errors and their texts, and iterators of views.
use porchsorrel_wkb::check::{check, Refused, WkbType};
use porchsorrel_wkb::columns::{Encodings, Facts, Levels, NotCollected, Status};
use porchsorrel_wkb::error::{General, Overflow, WkbError};
use porchsorrel_wkb::geom::{self, Coord, PointTrait, PolygonTrait};
use porchsorrel_wkb::geom::{CoordTrait, Dimensioned, Dimensions, GeometryTrait, GeometryType, LineStringTrait};
use porchsorrel_wkb::geopackage::{read_header, NoHeader};
use porchsorrel_wkb::reader::{read_wkb, Dimension, Wkb};
use porchsorrel_wkb::writer::{geometry_wkb_size, line_string_wkb_size, write_geometry, write_line_string};
use porchsorrel_wkb::writer::{write_point, Sink, VecSink, WriteOptions};
use porchsorrel_wkb::{AllocError, Endianness};

const TEXTS: &str = include_str!("../../c/test/texts.c");
const POINT: &[u8] = b"\x01\x01\0\0\0\0\0\0\0\0\0\xf0\x3f\0\0\0\0\0\0\0\x40";

/// A program for the crate `wkb` 0.9, with the names of this one: it reads a point, prints it, and writes it in the
/// other order, into a vector and into a slice.
#[test]
fn a_program_for_upstream() -> Result<(), Box<dyn std::error::Error>> {
    let wkb: Wkb = read_wkb(POINT)?;
    let mut printed = String::new();
    if let GeometryType::Point(point) = wkb.as_type() {
        let coord = point.coord().unwrap();
        printed = format!("POINT ({} {}), {:?}, {:?}", coord.x(), coord.y(), wkb.dimension(), wkb.geometry_type());
        let mut output = Vec::new();
        write_point(&mut output, point, &WriteOptions { endianness: Endianness::LittleEndian, ..Default::default() })?;
        assert_eq!(output, POINT);
    }
    assert_eq!(printed, "POINT (1 2), Xy, Point");
    let options = WriteOptions { endianness: Endianness::BigEndian, ..Default::default() };
    let mut output: Vec<u8> = Vec::with_capacity(geometry_wkb_size(&wkb)?);
    write_geometry(&mut output, &wkb, &options)?;
    assert_eq!(output, b"\0\0\0\0\x01\x3f\xf0\0\0\0\0\0\0\x40\0\0\0\0\0\0\0");
    let mut slice = [0; 21];
    write_geometry(&mut &mut slice[..], &wkb, &options)?;
    assert_eq!(slice[..], output);
    let full = write_geometry(&mut &mut slice[..20], &wkb, &options).unwrap_err();
    assert!(matches!(full, WkbError::IOError(why) if why.kind() == std::io::ErrorKind::WriteZero));
    Ok(())
}

/// What a type of one's own derives over those of the crate, and what is collected of them.
#[test]
fn copies_and_keys() {
    #[derive(Clone, Debug)]
    struct Row<'a>(Wkb<'a>);
    let polygon = b"\x01\x03\0\0\0\x01\0\0\0\0\0\0\0".as_slice();
    let lines = b"\x01\x05\0\0\0\x01\0\0\0\x01\x02\0\0\0\0\0\0\0";
    let polygons = [b"\x01\x06\0\0\0\x01\0\0\0", polygon].concat();
    let all = [b"\x01\x07\0\0\0\x04\0\0\0", POINT, polygon, lines, &polygons].concat();
    let row = Row(read_wkb(&all).unwrap());
    assert_eq!((row.clone().0.buf(), format!("{:?}", row.clone())), (&all[..], format!("{row:?}")));

    let types = [WkbType::Point(Dimension::Xy), WkbType::Point(Dimension::Xyz), WkbType::Point(Dimension::Xy)];
    assert_eq!(types.iter().collect::<std::collections::HashSet<_>>().len(), 2);
    fn is_key<K: std::hash::Hash + Eq>(_: K) {}
    is_key((WriteOptions::default(), Facts::default(), Encodings::default(), Status::OK, AllocError, Dimensions::Xy));
}

/// A writer that is interrupted before each write, and then takes one byte.
#[test]
fn interrupted_writes_are_tried_again() {
    struct Slow(Vec<u8>, bool);
    impl std::io::Write for Slow {
        fn write(&mut self, bytes: &[u8]) -> std::io::Result<usize> {
            self.1 = !self.1;
            if self.1 {
                return Err(std::io::ErrorKind::Interrupted.into());
            }
            self.0.push(bytes[0]);
            Ok(1)
        }
        fn flush(&mut self) -> std::io::Result<()> {
            Ok(())
        }
    }
    let mut slow = Slow(vec![], false);
    write_geometry(&mut slow, &read_wkb(POINT).unwrap(), &WriteOptions::default()).unwrap();
    assert_eq!(slow.0, POINT);
}

/// Each public error can be passed on, whatever the program does with errors.
#[test]
fn errors_are_errors() {
    fn is_error<E: std::error::Error + Send + Sync + 'static>() {}
    let _of_bytes = (is_error::<WkbError>, is_error::<General>, is_error::<Refused>, is_error::<NoHeader>);
    let _of_calls = (is_error::<Overflow>, is_error::<AllocError>, is_error::<NotCollected>);
}

/// Why an input isn't read, and what its header of a GeoPackage says.
fn dumped(input: &[u8]) -> (Option<String>, Vec<String>) {
    let header = read_header(input);
    if let (Err(why), true) = (header, input.starts_with(b"GP")) {
        return (Some(why.to_string()), vec![]);
    }
    let size = header.map_or(0, |it| it.size);
    let why = check(&input[size..]).err().map(|it| Refused { offset: it.offset + size, ..it }.to_string());
    let mut said: Vec<String> = header.iter().map(|it| format!("SRID {}", it.srs_id)).collect();
    for (axis, (least, greatest)) in header.iter().flat_map(|it| it.axes.chars().zip(it.envelope)) {
        said.extend([format!("least {axis} {least}"), format!("greatest {axis} {greatest}")]);
    }
    (why, said)
}

/// Why an input is rejected, and what is read of a GeoPackage's header, is what c/test/dump.cases has.
#[test]
fn texts_of_inputs() {
    let (mut refused, mut numbers) = (0, 0);
    for case in include_str!("../../c/test/dump.cases").split("\n> ").skip(1) {
        let (head, lines) = case.split_once('\n').unwrap();
        let digits: String = head.split(' ').skip(3).collect();
        let digits = digits.trim_start_matches("0x").trim_start_matches("\\x");
        let byte = |i| u8::from_str_radix(&digits[i..i + 2], 16).unwrap();
        let input: Vec<u8> = (0..digits.len()).step_by(2).map(byte).collect();
        let texts: Vec<&str> = lines.lines().filter_map(|it| it.rsplit("  ").next()).collect();
        let why = texts.iter().find_map(|it| it.strip_prefix("refused: ")?.split("; ").next());
        let (ours, said) = dumped(&input);
        assert_eq!(ours.as_deref(), why, "{input:x?}");
        let is_said = |it: &&&str| ["SRID", "least", "greatest"].iter().any(|word| it.starts_with(word));
        if !said.is_empty() {
            assert!(texts.iter().filter(is_said).eq(&said), "{said:?}");
        }
        (refused, numbers) = (refused + usize::from(why.is_some()), numbers + said.len());
    }
    assert!(refused > 20 && numbers > 5, "{refused} texts, {numbers} numbers");
}

#[test]
fn classes_of_statuses() {
    assert!(Status::OK.is_ok() && !Status::OK.is_refusal());
    assert!(!Status::BAD_LEVELS.is_refusal() && Status::SHORT_HEADER.is_refusal());
    let short = [Status::SHORT_HEADER, Status::SHORT_POINT, Status::SHORT_LINE_STRING, Status::SHORT_MULTI_POINT];
    assert!(short.iter().all(|it| it.is_short()) && Status::SHORT_LINEAR_RING.is_short());
    assert!(!Status::INVALID_BYTE_ORDER.is_short() && !Status::CODE_OUT_OF_RANGE.is_short());
    assert!(!Status::INCORRECT_TYPE.is_short() && !Status::NESTING_DEPTH_EXCEEDED.is_short());
    assert!(!Status::OK.is_short() && !Status::NULL_ROW.is_short() && !Status::BAD_LEVELS.is_short());
    assert_eq!((Status::NULL_ROW.number(), Status::NULL_ROW.text()), (16, "the row is null"));
    assert_eq!(format!("{:>17}|{:?}", Status::NULL_ROW, Status::OK), "  the row is null|Status(0: ok)");
}

/// The statuses are those of `c/wkb.h`, with the texts of c/test/texts.c, but those that no call of the crate returns.
#[test]
fn statuses_are_those_of_the_header() {
    let ours = include_str!("../src/columns/status.rs").split_whitespace().collect::<Vec<_>>().join(" ");
    let header = include_str!("../../c/wkb.h");
    let mut count = 0;
    let named = TEXTS.split("UNNAMED[]").next().unwrap();
    for row in named.split(", WKB_STATUS_").skip(1) {
        let (name, text) = (row.split(',').next().unwrap(), row.split('"').nth(1).unwrap());
        let number = header.split(&format!("  WKB_STATUS_{name} = ")).nth(1).unwrap();
        let number: String = number.chars().take_while(char::is_ascii_digit).collect();
        let defined = ours.contains(&format!(" {name} = {number}, \"{text}\";"));
        assert!(defined || ["NO_MEMORY", "NO_ROOM", "UNKNOWN_OPTION"].contains(&name), "{name} = {number}, {text}");
        count += 1;
    }
    assert_eq!(count, header.matches("\n  WKB_STATUS_").count());
}

/// The names of codes that aren't read are those of c/test/texts.c, by ISO and with the flags of EWKB.
#[test]
fn names_of_codes() {
    let names = TEXTS.split("UNREAD[] = {").nth(1).unwrap().split('}').next().unwrap();
    let names: Vec<&str> = names.split('"').skip(1).step_by(2).collect();
    assert_eq!(names.len(), 10);
    for (kind, name) in (8_u32..).zip(names) {
        for code in [0, 1000, 3000, 0xe000_0000].map(|it| it + kind) {
            let why = check(&[&[1][..], &code.to_le_bytes()].concat()).unwrap_err().to_string();
            assert!(why.starts_with(&format!("unknown geometry type code {code}, {name}, which this")), "{why}");
        }
    }
}

/// A line string of so many coordinates, none of which is in memory.
struct Zeros(usize);

impl Dimensioned for Zeros {
    fn dim(&self) -> Dimensions {
        Dimensions::Xy
    }
}

impl LineStringTrait for Zeros {
    type CoordType = Coord<'static>;

    fn num_coords(&self) -> usize {
        self.0
    }

    fn coord(&self, i: usize) -> Option<Self::CoordType> {
        Coord::new(Dimensions::Xy, &[0, 0]).filter(|_| i < self.0)
    }
}

/// Whatever the width of `usize`: a size is what is written, or it is said that `usize` doesn't hold it, or that four
/// bytes don't hold the count. Then nothing is written.
#[test]
fn sizes_that_usize_may_not_hold() {
    let most = u64::from(u32::MAX);
    let counts = [0, (1 << 28) - 1, 1 << 28, (1 << 28) + 1, most, most + 1];
    for count in counts.into_iter().filter(|it| usize::try_from(*it).is_ok()) {
        let (line, size) = (Zeros(count as usize), usize::try_from(9 + 16 * count).map_err(|_| Overflow::Size));
        match (line_string_wkb_size(&line), if count > most { Err(Overflow::Count) } else { size }) {
            (Ok(size), Ok(meant)) => assert_eq!(size, meant),
            (Err(WkbError::OverflowError(why)), Err(meant)) if why == meant => {
                let mut out = VecSink::new();
                let written = write_line_string(&mut out, &line, &WriteOptions::default());
                assert!(matches!(written, Err(WkbError::OverflowError(why)) if why == meant));
                assert!(!out.failed() && out.into_vec().is_empty());
            }
            (size, _) => panic!("{count} coordinates: {size:?}"),
        }
    }
    for end in [3, u64::from(u32::MAX), 1 << 32, u64::MAX] {
        let ends = [2, end];
        let levels = Levels { words: &[0.0; 4], ring_ends: Some(&ends), ..Levels::default() };
        let rows = levels.encode(WkbType::LineString(Dimension::Xy), &WriteOptions::default()).unwrap();
        assert_eq!(rows.statuses, [Status::OK, Status::BAD_LEVELS]);
    }
}

/// Generic calls return the numbers that the view's own return, which have the bits of words; iterators go from both
/// ends, and know how long they are; and an index that isn't below its count returns nothing else, even if its product
/// with a size is no `usize`.
#[test]
fn coordinates_of_views() {
    fn sum<L: LineStringTrait>(line: &L) -> f64 {
        (0..line.num_coords()).map(|i| line.coord_at(i).x() + line.coord_at(i).nth_or_panic(3)).sum()
    }
    fn panics<T>(call: impl FnOnce() -> T) -> bool {
        std::panic::catch_unwind(std::panic::AssertUnwindSafe(call)).is_err()
    }
    let words: Vec<u64> = (1..=16).map(|it| f64::from(it).to_bits()).collect();
    let coords: Vec<u8> = words.iter().flat_map(|it| it.to_le_bytes()).collect();
    let (line, polygon) = (b"\x01\xba\x0b\0\0\x04\0\0\0", b"\x01\xbb\x0b\0\0\x01\0\0\0\x04\0\0\0");
    let (line, polygon) = ([&line[..], &coords].concat(), [&polygon[..], &coords].concat());
    let (line, polygon) = (read_wkb(&line).unwrap(), read_wkb(&polygon).unwrap());
    let (line, ring) = match (line.as_type(), polygon.as_type()) {
        (GeometryType::LineString(line), GeometryType::Polygon(polygon)) => (line, polygon.exterior().unwrap()),
        _ => panic!("no line string or no polygon"),
    };
    let own = geom::LineString::new(Dimensions::Xyzm, &words).unwrap();
    assert_eq!((sum(line), sum(&ring), sum(&own)), (68.0, 68.0, 68.0));
    // The case line-plain.
    let count = |dim, len| geom::LineString::new(dim, &words[..len]).map(|it| it.num_coords());
    assert_eq!([0, 6, 7].map(|len| count(Dimensions::Xyz, len)), [Some(0), Some(2), None]);
    assert_eq!(count(Dimensions::Unknown(0), 0), None);

    let mut coords = line.coords();
    assert_eq!((coords.len(), coords.next_back().map(|it| it.x_y())), (4, Some((13.0, 14.0))));
    assert_eq!((coords.next().map(|it| it.x_y()), coords.len()), (Some((1.0, 2.0)), 2));
    let (coord, own_coord) = (line.coord(1).unwrap(), own.coord(1).unwrap());
    assert_eq!([0, 1, 2, 3, 4].map(|n| coord.nth(n)), [Some(5.0), Some(6.0), Some(7.0), Some(8.0), None]);
    assert_eq!([0, 3].map(|n| coord.nth_word(n)), [5.0, 8.0].map(|it: f64| Some(it.to_bits())));

    for i in (2..usize::BITS).map(|shift| 1_usize << shift).flat_map(|it| [it, it + 1, usize::MAX - it + 1]) {
        assert!(line.coord(i).is_none() && ring.coord(i).is_none() && own.coord(i).is_none());
        assert_eq!((coord.nth_word(i), own_coord.nth_word(i), coord.nth(i)), (None, None, None));
        if cfg!(panic = "unwind") {
            assert!(panics(|| line.coord_at(i)) && panics(|| ring.coord_at(i)) && panics(|| own.coord_at(i)));
            assert!(panics(|| coord.word_at(i)) && panics(|| own_coord.word_at(i)) && panics(|| coord.nth_or_panic(i)));
        }
    }
}
