// SPDX-License-Identifier: MIT OR Apache-2.0
//! The inputs of c/test/lasting.rows, whose answers are those of a model (`checks/library/lasting --help`).
use porchsorrel_wkb::writer::{Form, WriteOptions};
use porchsorrel_wkb::Endianness;

/// An input, and the numbers of its answer: its status, what is found or the fault, and sums of what is written under
/// each option, of the bounds, of the parts and of the levels.
pub struct Row {
    pub input: Vec<u8>,
    pub status: u8,
    pub fields: Vec<u64>,
    pub sums: Vec<u32>,
}

fn row(line: &str) -> Row {
    let mut words = line.split(' ');
    let digits = words.next().unwrap();
    let byte = |i| u8::from_str_radix(&digits[i..i + 2], 16).unwrap();
    let input = (0..digits.len()).step_by(2).map(byte).collect();
    let status = words.next().unwrap().parse().unwrap();
    let fields = words.by_ref().take(if status == 0 { 11 } else { 5 });
    let fields = fields.map(|it| it.parse().unwrap()).collect();
    Row { input, status, fields, sums: words.map(|it| u32::from_str_radix(it, 16).unwrap()).collect() }
}

pub fn rows() -> Vec<Row> {
    let lines = include_str!("../../../c/test/lasting.rows").lines();
    let rows: Vec<Row> = lines.filter(|it| !it.starts_with('#')).map(row).collect();
    assert_eq!(rows.iter().filter(|it| it.sums.len() >= 11).count(), 672);
    rows
}

/// The options of a sum, for a geometry with this SRID of its own.
pub fn options(number: usize, own: Option<u32>) -> WriteOptions {
    let form = match number % 4 {
        0 => Form::Iso,
        1 => Form::Ewkb { srid: own },
        2 => Form::Ewkb { srid: Some(4326) },
        _ => Form::Ewkb { srid: None },
    };
    WriteOptions { endianness: [Endianness::BigEndian, Endianness::LittleEndian][number / 4], form }
}

/// FNV-1a in 32 bits.
pub fn summed(bytes: &[u8]) -> u32 {
    bytes.iter().fold(0x811c_9dc5, |sum, byte| (sum ^ u32::from(*byte)).wrapping_mul(0x0100_0193))
}
