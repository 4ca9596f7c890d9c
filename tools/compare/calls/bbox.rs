//! Degree boxes, of numbers from a table that changes from call to call.
use utiles_core::{BBox, LngLat};

use crate::ffi::*;
use crate::memory::value;
use crate::places::{Places, any, near};
use crate::sample::Random;
use crate::tally::Tally;

macro_rules! of_two {
    ($($name:ident $ours:ident),*) => {
        const OF_TWO: [(&str, OfTwo, fn(&BBox, &BBox) -> bool); 3] = [$((stringify!($name), $ours, BBox::$name)),*];
    };
}
type OfTwo = extern "C" fn(f64, f64, f64, f64, f64, f64, f64, f64, &mut u8) -> u8;
of_two!(contains_bbox nori_bbox_contains_bbox, is_within nori_bbox_is_within, intersects nori_bbox_intersects);

type Degrees = [f64; 4];

pub fn compare(tally: &mut Tally, random: &mut Random) {
    let table = table(random);
    let degrees = |places: Places| places.map(|place| table[place as usize]);
    let places = any(random);
    let mut beside = || degrees(if random.below(3) == 0 { any(random) } else { near(random, places) });
    let (area, other, point) = (degrees(places), beside(), beside());
    let [w, s, e, n] = area;
    let ours = value(9, |told| nori_bbox_crosses_antimeridian(w, s, e, n, told));
    tally.call("crosses_antimeridian", area, ours, || (0, made(area).crosses_antimeridian().into()));
    let ours = value(9, |told| nori_bbox_is_antimeridian(w, s, e, n, told));
    tally.call("is_antimeridian", area, ours, || (0, made(area).is_antimeridian().into()));
    tally.call("bboxes", area, parts(area), || (0, made(area).bboxes().iter().map(bits).collect()));
    let [lng, lat, ..] = point;
    let ours = value(9, |told| nori_bbox_contains_lnglat(w, s, e, n, lng, lat, told));
    tally.call("contains_lnglat", (area, lng, lat), ours, || {
        (0, made(area).contains_lnglat(&LngLat::new(lng, lat)).into())
    });
    for (name, ours, theirs) in OF_TWO {
        // `is_within` looks from inside, the others from outside.
        let (a, b) = if name == "is_within" { (other, area) } else { (area, other) };
        let ours = value(9, |told| ours(a[0], a[1], a[2], a[3], b[0], b[1], b[2], b[3], told));
        tally.call(name, (a, b), ours, || (0, theirs(&made(a), &made(b)).into()));
    }
}

// NaN, the infinities, both zeros, the map's ends or numbers near them, and two of any size: the numbers in order.
fn table(random: &mut Random) -> [f64; 12] {
    let mut about =
        |n: f64| if random.below(4) == 0 { n * (1.0 + random.below(1 << 20) as f64 * f64::EPSILON) } else { n };
    let (west, south, north, east) = (about(-180.0), about(-90.0), about(90.0), about(180.0));
    let mut between = |low: f64, high: f64| low + (high - low) * (random.below(1 << 52) as f64 / (1_u64 << 52) as f64);
    let (a, b, c) = (between(-90.0, 0.0), between(0.0, 90.0), between(90.0, 180.0));
    let mut table = [f64::NAN, f64::NEG_INFINITY, west, south, a, -0.0, 0.0, b, north, c, east, f64::INFINITY];
    table[1..].sort_by(f64::total_cmp);
    table
}

fn made([west, south, east, north]: Degrees) -> BBox {
    BBox::new(west, south, east, north)
}

/// The bits of a box: -0.0 and 0.0 are not the same, and a NaN is one.
fn bits(area: &BBox) -> [u64; 4] {
    [area.west, area.south, area.east, area.north].map(number_bits)
}

fn number_bits(n: f64) -> u64 {
    if n.is_nan() { f64::NAN.to_bits() } else { n.to_bits() }
}

/// The refusal's number and the parts. Of a box that has one, the second is zeros.
fn parts([west, south, east, north]: Degrees) -> (u8, Vec<[u64; 4]>) {
    let mut count = 9;
    let [mut a, mut b] = [[7.0; 4]; 2];
    let ([w1, s1, e1, n1], [w2, s2, e2, n2]) = (&mut a, &mut b);
    let number = nori_bbox_bboxes(west, south, east, north, &mut count, w1, s1, e1, n1, w2, s2, e2, n2);
    let mut parts = vec![a.map(number_bits)];
    if count != 1 || b.map(number_bits) != [0; 4] {
        parts.push(b.map(number_bits));
    }
    (number, parts)
}
