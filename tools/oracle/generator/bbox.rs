//! Degree boxes. A number is written as its place in the table.
use utiles_core::{BBox, LngLat};

use crate::places::{Places, any, near};
use crate::record::List;
use crate::sample::Random;

const TABLE: [f64; 12] =
    [f64::NAN, f64::NEG_INFINITY, -180.0, -90.0, -10.5, -0.0, 0.0, 10.5, 90.0, 179.5, 180.0, f64::INFINITY];
const CALLS: usize = 600;

pub fn write(list: &mut List) {
    let mut random = Random::new();
    points(list, &mut random);
    pairs(list, &mut random);
    for i in 0..CALLS {
        let [_, south, _, north] = any(&mut random);
        // Every west with every east, four times over.
        let area = [i as u64 % 12, south, i as u64 / 12 % 12, north];
        list.call("crosses_antimeridian", &area, 0, 1, || vec![made(area).crosses_antimeridian().into()]);
        list.call("bboxes", &area, 0, 1, || split(area));
    }
}

// A corner of a box that lies near the box, or any two numbers.
fn points(list: &mut List, random: &mut Random) {
    for i in 0..CALLS {
        let area = any(random);
        let [lng, lat, ..] = if i % 3 == 0 { any(random) } else { near(random, area) };
        list.call("contains_lnglat", &[&area[..], &[lng, lat]].concat(), 0, 1, || {
            vec![made(area).contains_lnglat(&LngLat::new(value(lng), value(lat))).into()]
        });
    }
}

fn pairs(list: &mut List, random: &mut Random) {
    let functions: [(&str, fn(&BBox, &BBox) -> bool); 3] =
        [("contains_bbox", BBox::contains_bbox), ("is_within", BBox::is_within), ("intersects", BBox::intersects)];
    for (name, holds) in functions {
        for i in 0..CALLS {
            let area = any(random);
            let other = if i % 3 == 0 { any(random) } else { near(random, area) };
            // `is_within` looks from inside, the others from outside.
            let (a, b) = if name == "is_within" { (other, area) } else { (area, other) };
            list.call(name, &[a, b].concat(), 0, 1, || vec![holds(&made(a), &made(b)).into()]);
        }
    }
}

fn value(place: u64) -> f64 {
    TABLE[place as usize]
}

// -0.0 and 0.0 are two places, so bits are compared.
fn place(value: f64) -> u64 {
    TABLE.iter().position(|entry| entry.to_bits() == value.to_bits()).expect("a number of the table") as u64
}

fn made([west, south, east, north]: Places) -> BBox {
    BBox::new(value(west), value(south), value(east), value(north))
}

fn split(area: Places) -> Vec<u64> {
    let parts = made(area).bboxes();
    let places = parts.iter().flat_map(|part| [part.west, part.south, part.east, part.north].map(place));
    [vec![parts.len() as u64], places.collect()].concat()
}
