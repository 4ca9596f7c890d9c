//! The tiles, boxes and numbers that the calls are made with: every zoom on which the Rust is held alike, and
//! the edges of the map often.
use crate::paper::COMPARED;
use crate::sample::{Random, Xyz, Zbox};

pub fn zoom(random: &mut Random) -> u8 {
    random.below(u64::from(COMPARED) + 1) as u8
}

/// A column or a row of a zoom.
pub fn coordinate(random: &mut Random, z: u8) -> u32 {
    let last = (1 << z) - 1;
    match random.below(10) {
        0 => 0,
        1 => last,
        2 => last.min(1),
        3 => last.saturating_sub(1),
        4 => last / 2,
        _ => random.coordinate(z),
    }
}

pub fn tile_of(random: &mut Random, z: u8) -> Xyz {
    (coordinate(random, z), coordinate(random, z), z)
}

pub fn tile(random: &mut Random) -> Xyz {
    let z = zoom(random);
    tile_of(random, z)
}

/// A run of columns or rows: all, one, a few, or any.
fn run(random: &mut Random, z: u8) -> (u32, u32) {
    let last = (1 << z) - 1;
    let (a, b) = (coordinate(random, z), coordinate(random, z));
    match random.below(6) {
        0 => (0, last),
        1 => (a, a),
        2 | 3 => (a, last.min(a + random.below(8) as u32)),
        _ => (a.min(b), a.max(b)),
    }
}

pub fn area(random: &mut Random) -> Zbox {
    let z = zoom(random);
    let ((minx, maxx), (miny, maxy)) = (run(random, z), run(random, z));
    (z, minx, maxx, miny, maxy)
}

/// A box of at most six columns and rows.
pub fn small_area(random: &mut Random) -> Zbox {
    let (x, y, z) = tile(random);
    let last = (1 << z) - 1;
    let mut up_to = |n: u32| last.min(n + random.below(6) as u32);
    (z, x, up_to(x), y, up_to(y))
}

/// A word that is any, thin, dense, or one of the ends.
pub fn word(random: &mut Random) -> u32 {
    let word = random.word();
    match random.below(8) {
        0 => word & random.word(),
        1 => word | random.word(),
        2 => 1 << random.below(32),
        3 => random.pick(&[0, 1, u32::MAX, u32::MAX >> 1, 1 << 31, 3 << 30]),
        _ => word,
    }
}
