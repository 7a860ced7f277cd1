//! What was read, by the traits.
use geo_traits::*;
use porchsorrel_wkb::reader::read_wkb;
use porchsorrel_wkb_geo::{to_vec, Geometry};

#[path = "../../tests/shared/lasting.rs"]
#[allow(dead_code)]
mod shared;
use shared::{options, rows, summed};

/// What is read by the traits is written as the model writes it.
#[test]
fn each_input() {
    for it in rows() {
        let read = read_wkb(&it.input);
        assert_eq!(read.is_ok(), it.status == 0, "{:x?}", it.input);
        let Ok(wkb) = read else { continue };
        for (number, sum) in it.sums[..8].iter().enumerate() {
            let written = to_vec(&Geometry::from(&wkb), &options(number, wkb.srid())).unwrap();
            assert_eq!(summed(&written), *sum, "{number} of {:x?}", it.input);
        }
    }
}

/// A polygon of XYZM in big endian, whose rings have two coordinates each: an exterior and three interiors.
#[test]
fn a_third_interior() {
    let mut input = b"\0\0\0\x0b\xbb\0\0\0\x04".to_vec();
    for ring in 0..4 {
        input.extend(b"\0\0\0\x02");
        input.extend((8 * ring..8 * ring + 8).flat_map(|n| f64::from(n).to_be_bytes()));
    }
    let wkb = read_wkb(&input).unwrap();
    let geometry = Geometry::from(&wkb);
    let GeometryType::Polygon(polygon) = geometry.as_type() else { panic!("no polygon") };
    assert_eq!((polygon.dim(), polygon.num_interiors()), (Dimensions::Xyzm, 3));
    let numbers = |it: &dyn Fn(usize) -> f64| (0..4).map(it).collect::<Vec<_>>();
    let ring = polygon.interior(2).unwrap();
    let coord = ring.coord(1).unwrap();
    assert_eq!((coord.x_y(), numbers(&|n| coord.nth_or_panic(n))), ((28.0, 29.0), vec![28.0, 29.0, 30.0, 31.0]));
    assert_eq!((ring.dim(), coord.dim(), ring.num_coords()), (Dimensions::Xyzm, Dimensions::Xyzm, 2));
    let far = std::panic::catch_unwind(|| coord.nth_or_panic(1 << (usize::BITS - 3)));
    assert!(far.is_err() && coord.nth(4).is_none() && ring.coord(2).is_none() && polygon.interior(3).is_none());
    let rings = polygon.exterior().into_iter().chain(polygon.interiors());
    let firsts = rings.flat_map(|it| it.coords().map(|it| it.x()).collect::<Vec<_>>());
    assert_eq!(firsts.collect::<Vec<_>>(), [0.0, 4.0, 8.0, 12.0, 16.0, 20.0, 24.0, 28.0]);
}
