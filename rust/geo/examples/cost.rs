//! Times calls of both crates over files of `checks/hosts/cost_inputs.py`: prints the call, the file, and the
//! processor's seconds of the shorter of two runs. Usage: `cost PART_OF_A_NAME FILE..`
use porchsorrel_wkb::check::WkbType;
use porchsorrel_wkb::columns::{Column, Levels};
use porchsorrel_wkb::reader::{read_wkb, Dimension};
use porchsorrel_wkb::writer::{Form, WriteOptions};
use porchsorrel_wkb::Endianness;
use porchsorrel_wkb_geo::{to_vec, Geometry};
use std::{env, fs, hint::black_box};

const OPTIONS: WriteOptions = WriteOptions { endianness: Endianness::BigEndian, form: Form::Iso };

type OfOne = (&'static str, fn(&[u8]));
type OfAll = (&'static str, fn(&Column));

/// Calls for a geometry.
const ONE: [OfOne; 2] = [
    ("read_wkb", |it| drop(black_box(read_wkb(it)))),
    ("to_vec", |it| drop(black_box(read_wkb(it).map(|it| to_vec(&Geometry::from(&it), &OPTIONS))))),
];

/// Calls for a column.
const ALL: [OfAll; 5] = [
    ("facts", |it| drop(black_box(it.facts()))),
    ("facts_of_parts", |it| it.split(9).for_each(|it| drop(black_box(it.facts())))),
    ("column_write", |it| drop(black_box(it.write(&OPTIONS)))),
    ("coordinates", |it| drop(black_box(it.coordinates(Dimension::Xyzm)))),
    ("collect", |it| drop(black_box(it.collect(WkbType::GeometryCollection(Dimension::Xy), &OPTIONS)))),
];

extern "C" {
    fn clock_gettime(clock: i32, time: &mut [i64; 2]) -> i32;
}

/// The processor's time of this process in seconds.
fn now() -> f64 {
    let (process, mut time) = (2, [0; 2]);
    // SAFETY: the call writes a time of two numbers.
    assert_eq!(unsafe { clock_gettime(process, &mut time) }, 0);
    time[0] as f64 + 1e-9 * time[1] as f64
}

/// The processor's seconds of a call: of as many as take a millisecond, since the clock may stand still for shorter.
fn seconds(call: &dyn Fn()) -> f64 {
    let (begin, mut taken, mut calls) = (now(), 0.0, 0.0);
    while taken < 0.001 {
        call();
        (taken, calls) = (now() - begin, calls + 1.0);
    }
    taken / calls
}

/// Times the calls over a file, by `time`: a column, or levels if there are singles.
fn each(file: &str, time: &dyn Fn(&str, &dyn Fn())) {
    let held = fs::read(file).expect("a file");
    let (head, mut rest) = held.split_at(40);
    let numbers = |it: &[u8]| it.chunks_exact(8).map(|it| u64::from_ne_bytes(it.try_into().unwrap())).collect();
    let head: Vec<u64> = numbers(head);
    let [rows, singles, rings, size, nulls] = [0, 1, 2, 3, 4].map(|i| head[i] as usize);
    let mut take = |bytes| {
        let (taken, behind) = rest.split_at(bytes);
        rest = behind;
        taken
    };
    if singles > 0 {
        let [row_ends, single_ends, ring_ends, words]: [Vec<u64>; 4] =
            [rows, singles, rings, size].map(|it| numbers(take(8 * it)));
        let words: Vec<f64> = words.into_iter().map(f64::from_bits).collect();
        let (ring_ends, single_ends, row_ends) = (Some(&ring_ends[..]), Some(&single_ends[..]), Some(&row_ends[..]));
        let levels = Levels { words: &words, ring_ends, single_ends, row_ends };
        let polygons = WkbType::MultiPolygon(Dimension::Xy);
        return time("encode", &|| drop(black_box(levels.encode(polygons, &OPTIONS))));
    }
    let (offsets, validity, data) = (take(8 * (rows + 1)), take(8 * nulls), take(size));
    let mut column = Column::large_binary(data, offsets);
    if nulls > 0 {
        column = column.with_validity(validity, 0).expect("bits");
    }
    for (name, call) in ALL {
        time(name, &|| call(&column));
    }
    let first = column.rows().next();
    if let (1, Some(Ok(row))) = (rows, first) {
        for (name, call) in ONE {
            time(name, &|| call(row));
        }
    }
}

fn main() {
    let words: Vec<String> = env::args().skip(1).collect();
    for file in &words[1..] {
        each(file, &|name, call| {
            if name.contains(&words[0]) {
                println!("{name} {file} {:.9}", seconds(call).min(seconds(call)));
            }
        });
    }
}
