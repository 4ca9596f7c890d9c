//! Lists of tiles, by their entries.
use crate::paper::entry;
use crate::sample::{Random, Xyz};

/// All descendants of a tile, `down` zooms below it.
pub fn level((x, y, z): Xyz, down: u8) -> Vec<u64> {
    let side = 1 << down;
    (0..side).flat_map(|i| (0..side).map(move |j| entry((x * side + i, y * side + j, z + down)))).collect()
}

pub fn ancestors((x, y, z): Xyz) -> Vec<u64> {
    (1..=z).map(|up| entry((x >> up, y >> up, z - up))).collect()
}

/// A tile at most `depth` zooms below another.
pub fn under(random: &mut Random, (x, y, z): Xyz, depth: u8) -> u64 {
    let down = random.below(u64::from(depth) + 1) as u8;
    let (i, j) = (random.coordinate(down), random.coordinate(down));
    entry(((x << down) + i, (y << down) + j, z + down))
}

/// In another order, and one entry of four once more.
pub fn shuffled(random: &mut Random, entries: &[u64]) -> Vec<u64> {
    let mut list = entries.to_vec();
    if !list.is_empty() {
        list.extend(random.picks(entries, entries.len() / 4));
    }
    mixed(random, list)
}

/// In another order.
pub fn mixed(random: &mut Random, mut list: Vec<u64>) -> Vec<u64> {
    for i in (1..list.len()).rev() {
        list.swap(i, random.below(i as u64 + 1) as usize);
    }
    list
}
