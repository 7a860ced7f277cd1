//! Encodes coordinates of one's own: a point, a column of line strings, which are collected into one geometry, and a
//! polygon with a hole.
use porchsorrel_wkb::check::WkbType;
use porchsorrel_wkb::columns::{Levels, NotCollected, Rows};
use porchsorrel_wkb::reader::Dimension;
use porchsorrel_wkb::writer::WriteOptions;

fn print(what: &str, encoding: &[u8]) {
    let hex: String = encoding.iter().map(|byte| format!("{byte:02x}")).collect();
    println!("{what}: {hex}");
}

fn main() -> Result<(), NotCollected> {
    let options = WriteOptions::default();
    let point = Levels { words: &[1.0, 2.0], ..Levels::default() };
    print("point", &point.encode(WkbType::Point(Dimension::Xy), &options)?.data);

    // Two line strings of two coordinates each: each ends where the next one begins.
    let words = [0.0, 0.0, 1.0, 1.0, 5.0, 5.0, 6.0, 6.0];
    let lines = Levels { words: &words, ring_ends: Some(&[2, 4]), ..Levels::default() };
    let rows = lines.encode(WkbType::LineString(Dimension::Xy), &options)?;
    for (row, status) in rows.rows().zip(&rows.statuses) {
        match row {
            Some(encoding) => print("linestring", encoding),
            None => println!("{status}"),
        }
    }

    let both = Rows::of(rows.rows())?;
    print("multilinestring", &both.column().collect(WkbType::MultiLineString(Dimension::Xy), &options)?);

    // One polygon of two rings, the exterior of five coordinates and the interior of four.
    let words = [0., 0., 9., 0., 9., 9., 0., 9., 0., 0., 1., 1., 2., 2., 1., 2., 1., 1.];
    let polygon = Levels { words: &words, ring_ends: Some(&[5, 9]), single_ends: Some(&[2]), ..Levels::default() };
    print("polygon", &polygon.encode(WkbType::Polygon(Dimension::Xy), &options)?.data);
    Ok(())
}
