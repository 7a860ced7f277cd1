// SPDX-License-Identifier: MIT OR Apache-2.0
//! Each allocation of each call fails in turn, and each time the answer says so; and what hostile inputs allocate.
use porchsorrel_wkb::canon::{canonical, canonical_into, canonical_with_srid};
use porchsorrel_wkb::check::{check, Cause, Refused, WkbType};
use porchsorrel_wkb::columns::{Facts, Levels, NotCollected, Rows};
use porchsorrel_wkb::error::WkbError;
#[cfg(not(feature = "std"))]
use porchsorrel_wkb::io;
use porchsorrel_wkb::parts::{parts, parts_before};
use porchsorrel_wkb::reader::{read_wkb, Dimension, Wkb};
use porchsorrel_wkb::writer::{to_vec, write_geometry, Form, VecSink, WriteOptions};
use porchsorrel_wkb::{AllocError, Endianness};
use std::cell::{Cell, RefCell};
#[cfg(feature = "std")]
use std::io;
use std::mem::size_of;

#[path = "shared/failing.rs"]
mod failing;
use failing::{tried, TAKEN};

/// Collections in one another, a polygon, a multi line string and a multi polygon.
fn input() -> Vec<u8> {
    let ring = [&[1, 0, 0, 0][..], &[0; 16]].concat();
    let polygon = [&[1, 3, 0, 0, 0, 2, 0, 0, 0][..], &ring, &ring].concat();
    let lines = [&[1, 5, 0, 0, 0, 1, 0, 0, 0, 1, 2, 0, 0, 0][..], &ring].concat();
    let polygons = [&[1, 6, 0, 0, 0, 1, 0, 0, 0][..], &polygon].concat();
    let inner = [&[1, 7, 0, 0, 0, 3, 0, 0, 0][..], &polygon, &lines, &polygons].concat();
    [&[1, 7, 0, 0, 0x20, 7, 0, 0, 0, 2, 0, 0, 0][..], &inner, &polygon].concat()
}

#[test]
fn each_allocation_fails() {
    let input = input();
    let options = WriteOptions { endianness: Endianness::BigEndian, form: Form::Iso };
    assert!(tried(|| read_wkb(&input).map(drop)) > 5);
    assert!(tried(|| canonical(&input, &options)) == 1);
    let out = RefCell::new(vec![7]);
    let keyed = tried(|| {
        let keyed = canonical_into(&input, &options, &mut out.borrow_mut());
        assert_eq!(keyed.is_err(), out.borrow().is_empty());
        keyed
    });
    assert_eq!(keyed, 1);
    assert!(tried(|| canonical_with_srid(&input, Endianness::LittleEndian)) == 1);
    assert_eq!(tried(|| parts(&input)), 2);
    let of_no_input = Refused { cause: Cause::IncorrectType, part: usize::MAX, offset: 0 };
    assert!(parts_before(&input, &of_no_input).is_ok());
    let wkb = read_wkb(&input).unwrap();
    assert!(tried(|| wkb.try_clone().map(drop)) > 5);
    assert!(tried(|| to_vec(&wkb, &options)) == 1);
    let grown = tried(|| {
        let mut sink = VecSink::new();
        let result = write_geometry(&mut sink, &wkb, &options);
        // A sink's failure is an error of `io`, of the kind `OutOfMemory`.
        match result {
            Err(WkbError::IOError(why)) if why.kind() == io::ErrorKind::OutOfMemory => Err(WkbError::from(AllocError)),
            result => result,
        }
    });
    assert!(grown >= 1);
}

#[test]
fn each_allocation_of_a_column_fails() {
    let (input, options) = (input(), WriteOptions::default());
    let made = || Rows::of([Some(&input), None, Some(&input)]);
    assert!(tried(made) >= 3);
    let rows = made().unwrap();
    let column = rows.column();
    assert_eq!(tried(|| column.rows().chain(column.rows()).try_for_each(|_| Ok::<(), AllocError>(()))), 0);
    assert_eq!(tried(|| Ok::<usize, AllocError>(column.found().filter(Result::is_ok).count())), 0);
    assert_eq!(tried(|| column.check()), 1);
    assert_eq!(tried(|| column.bounds()), 2);
    assert_eq!(tried(|| column.write(&options)), 3);
    assert_eq!(tried(|| column.write_with_srids(Endianness::BigEndian)), 3);
    assert_eq!(tried(|| column.coordinates(Dimension::Xy)), 5);
    assert!(tried(|| column.facts()) == 2);
    assert!(tried(|| Facts::default().add(&column.facts().map_err(|_| AllocError)?)) >= 4);
    let collected = || column.slice(0..1).collect(WkbType::GeometryCollection(Dimension::Xy), &options);
    assert_eq!(tried::<_, NotCollected>(collected), 1);
    let levels = Levels { words: &[1.0; 20], ..Levels::default() };
    assert_eq!(tried(|| levels.encode(WkbType::Point(Dimension::Xy), &options)), 4);
}

/// How many bytes a call takes for an input.
fn taken(call: impl Fn(&[u8]) -> bool, input: &[u8]) -> usize {
    TAKEN.with(|taken| taken.set(0));
    let _ = call(input);
    TAKEN.with(Cell::get)
}

/// Megabytes of counts that claim what follows, up to a byte that is no order, and the geometries whose lists are
/// longest: none takes more than is promised.
#[test]
fn hostile_counts_take_little() {
    const LONG: usize = 1 << 20;
    let head = |code: u8, count: u32| [&[1, code, 0, 0, 0][..], &count.to_le_bytes()].concat();
    let claims = |code| head(code, u32::MAX);
    let long = |heads: &[Vec<u8>]| [heads.concat(), vec![2; LONG]].concat();
    let many =
        |code, member: &[u8]| [head(code, (LONG / member.len()) as u32), member.repeat(LONG / member.len())].concat();
    let reads = |bytes: &[u8]| read_wkb(bytes).is_ok();
    let nested = long(&vec![claims(7); 128]);
    assert!(taken(|bytes| Wkb::try_new(bytes).is_ok(), &nested) > 12 * size_of::<Wkb<'_>>() * LONG);
    assert_eq!((taken(reads, &nested), taken(|bytes| check(bytes).is_ok(), &nested)), (0, 0));
    let fits = |code| head(code, (LONG / 9) as u32);
    let members = [vec![claims(6), claims(3)], vec![fits(7); 128], vec![fits(7), fits(6), claims(3)]];
    let rejected = (1..8).map(|code| long(&[claims(code)])).chain(members.map(|heads| long(&heads)));
    let deep = [head(7, 1).repeat(127), head(7, 0)].concat();
    let accepted = [deep, many(7, &head(7, 0)), many(6, &head(3, 0)), many(6, &[head(3, 1), vec![0; 4]].concat())];
    for input in rejected.chain(accepted) {
        assert!(taken(reads, &input) < 9 * input.len() + 20_000, "{:x?}", &input[..18]);
    }
    // What is behind the geometry takes no memory.
    let keeps = |bytes: &[u8]| canonical_into(bytes, &WriteOptions::default(), &mut Vec::new()).is_ok();
    assert!(taken(keeps, &long(&[head(2, 0)])) < 100);
}

/// Where `usize` has 32 bits: a line string of a gigabyte, of which calls make as many bytes; and no call finds room
/// for them where little is left, or for more than there can be.
#[cfg(target_pointer_width = "32")]
#[test]
#[ignore = "it takes two gigabytes"]
fn gigabytes() {
    use porchsorrel_wkb::{canon::same, check::bounds, columns::Column};
    const COUNT: usize = (1 << 26) - 1;
    let mut line = vec![0; 9 + 16 * COUNT];
    line[..9].copy_from_slice(b"\x01\x02\0\0\0\xff\xff\xff\x03");
    let found = check(&line).unwrap();
    assert_eq!((found.bytes, found.coordinates, bounds(&line).unwrap().x.count), (line.len(), COUNT, COUNT as u64));
    let options = WriteOptions { endianness: Endianness::BigEndian, form: Form::Iso };
    let (wkb, offsets) = (read_wkb(&line).unwrap(), [0, line.len() as u32].map(u32::to_ne_bytes).concat());
    let column = Column::binary(&line, &offsets);
    let size = |made: &[u8]| if same(&line, made).unwrap() { made.len() } else { 0 };
    let calls: [&dyn Fn() -> Result<usize, WkbError>; 4] = [
        &|| Ok(size(&canonical(&line, &options)?)),
        &|| Ok(size(&to_vec(&wkb, &options)?)),
        &|| Ok(size(&column.write(&options)?.data)),
        &|| Ok(9 + 8 * column.coordinates(Dimension::Xy)?.words.len()),
    ];
    calls.iter().for_each(|call| assert_eq!(call().unwrap(), line.len()));
    let mut held = vec![Vec::<u8>::new(); 32];
    let full = held.iter_mut().position(|it| it.try_reserve_exact(1 << 27).is_err());
    assert!(full.is_some() && calls.iter().all(|call| matches!(call(), Err(WkbError::Memory(_)))));
    // A list of so many empty collections has no size.
    drop(held);
    let members = COUNT * 16 / 9;
    line.chunks_exact_mut(9).for_each(|it| it.copy_from_slice(b"\x01\x07\0\0\0\0\0\0\0"));
    line[5..9].copy_from_slice(&(members as u32).to_le_bytes());
    assert_eq!(check(&line).unwrap().parts, members + 1);
    assert!(matches!(read_wkb(&line), Err(WkbError::Memory(_))));
}
