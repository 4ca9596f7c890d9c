//! Document 01's refusals with document 02's limits, by their words alone: 0 where nothing is refused, else the number
//! that is tested first. The number that stands for a tile in a list.
use crate::sample::{Xyz, Zbox};

/// The map's deepest zoom, by document 02.
pub const DEEPEST: u8 = 30;
/// The deepest zoom on which the Rust is held.
pub const COMPARED: u8 = 29;
/// The deepest zoom of `to_id` and `from_id`.
pub const DEEPEST_ID: u8 = 29;
pub const DEEPEST_IN_LIST: u8 = 30;
pub const MOST_BOXES: usize = 8;
/// Behind the last tile's number.
pub const RMID_END: u64 = first_of(DEEPEST + 1);

/// The columns of a zoom, or its rows.
pub fn side(z: u8) -> u64 {
    1 << z
}

/// The number of a zoom's first tile: (4^z - 1) / 3.
pub const fn first_of(z: u8) -> u64 {
    ((1 << (2 * z)) - 1) / 3
}

/// The number that stands for a tile in a list.
pub fn entry((x, y, z): Xyz) -> u64 {
    first_of(z) + u64::from(x) + u64::from(y) * side(z)
}

/// The tile that an entry stands for, found by the zooms' ranges.
pub fn tile_of(entry: u64) -> Xyz {
    let z = (0..=DEEPEST).find(|&z| entry < first_of(z + 1)).expect("an entry");
    let place = entry - first_of(z);
    ((place % side(z)) as u32, (place / side(z)) as u32, z)
}

/// The deepest zoom of a list's tiles, where each number is an entry.
pub fn deepest_of(entries: &[u64]) -> u8 {
    entries.iter().map(|&n| tile_of(n).2).max().unwrap_or(0)
}

/// The one that is tested first: of document 01's numbers the lowest.
pub fn lowest(numbers: &[u64]) -> u64 {
    numbers.iter().copied().filter(|&n| n != 0).min().unwrap_or(0)
}

pub fn zoom(z: u8) -> u64 {
    if z > DEEPEST { 1 } else { 0 }
}

pub fn row(y: u32, z: u8) -> u64 {
    if z > DEEPEST {
        1
    } else if u64::from(y) >= side(z) {
        2
    } else {
        0
    }
}

pub fn tile((x, y, z): Xyz) -> u64 {
    lowest(&[row(x, z), row(y, z)])
}

/// A step to another tile of the same zoom.
pub fn step(t: Xyz, across: i64, along: i64) -> u64 {
    if tile(t) != 0 {
        return tile(t);
    }
    let on_map = |n: u32, by: i64| (0..side(t.2) as i64).contains(&(i64::from(n) + by));
    if on_map(t.0, across) && on_map(t.1, along) { 0 } else { 2 }
}

pub fn parent(t: Xyz, n: Option<u8>) -> u64 {
    lowest(&[tile(t), if n.unwrap_or(0) >= t.2 { 3 } else { 0 }])
}

pub fn children(t: Xyz, target: Option<u8>) -> u64 {
    let target = target.map_or(u32::from(t.2) + 1, u32::from);
    lowest(&[tile(t), if target > DEEPEST.into() { 1 } else { 0 }])
}

pub fn siblings(t: Xyz) -> u64 {
    lowest(&[tile(t), if t.2 == 0 { 3 } else { 0 }])
}

pub fn key(bytes: &[u8]) -> u64 {
    if bytes.len() > DEEPEST.into() {
        4
    } else if bytes.iter().any(|b| !(48..=51).contains(b)) {
        5
    } else {
        0
    }
}

/// What `to_id` asks, which has a deepest zoom of its own.
pub fn id_tile(t: Xyz) -> u64 {
    if t.2 > DEEPEST_ID { 1 } else { tile(t) }
}

pub fn id(number: u64) -> u64 {
    let z = (number % 32) as u8;
    if z > DEEPEST_ID {
        return 7;
    }
    let place = number / 32;
    if place % (2 * side(z)) < side(z) && place / (2 * side(z)) < side(z) { 0 } else { 7 }
}

pub fn rmid(number: u64) -> u64 {
    if number >= RMID_END { 7 } else { 0 }
}

pub fn zbox((z, minx, maxx, miny, maxy): Zbox) -> u64 {
    if z > DEEPEST {
        1
    } else if minx > maxx || miny > maxy || u64::from(maxx) >= side(z) || u64::from(maxy) >= side(z) {
        10
    } else {
        0
    }
}

pub fn deeper(area: Zbox, depth: u8) -> u64 {
    let reached = u32::from(area.0) + u32::from(depth);
    lowest(&[zbox(area), if reached > DEEPEST.into() { 1 } else { 0 }])
}

pub fn box_length((_, minx, maxx, miny, maxy): Zbox) -> u64 {
    (u64::from(maxx) - u64::from(minx) + 1) * (u64::from(maxy) - u64::from(miny) + 1)
}

pub fn zboxes(areas: &[Zbox]) -> u64 {
    let each: Vec<u64> = areas.iter().map(|&area| zbox(area)).collect();
    lowest(&[lowest(&each), if areas.len() > MOST_BOXES { 6 } else { 0 }])
}

/// A cursor that has given more tiles than there are.
pub fn given(before: u64, tiles: u64) -> u64 {
    if before > tiles { 10 } else { 0 }
}

pub fn entries(numbers: &[u64]) -> u64 {
    if numbers.iter().any(|&n| rmid(n) != 0) { 7 } else { 0 }
}

/// What `merge` and both settlings ask: no number that is no tile's, and a place for each entry as sent.
pub fn tile_list(numbers: &[u64], places: usize) -> u64 {
    lowest(&[entries(numbers), if places < numbers.len() { 12 } else { 0 }])
}

/// The z, x and y of a tile, so that tiles are in list order as these are.
pub type Zxy = (u8, u32, u32);

pub fn place(entry: u64) -> Zxy {
    let (x, y, z) = tile_of(entry);
    (z, x, y)
}

/// Strictly in order, no tile beside its own ancestor, no four siblings together.
pub fn settled(entries: &[u64]) -> bool {
    let tiles: Vec<Zxy> = entries.iter().map(|&n| place(n)).collect();
    let above = |(z, x, y): Zxy, up: u8| (z - up, x >> up, y >> up);
    let has_ancestor = |t: Zxy| (1..=t.0).any(|up| tiles.contains(&above(t, up)));
    let siblings = |t: Zxy| tiles.iter().filter(|&&s| s.0 > 0 && t.0 > 0 && above(s, 1) == above(t, 1)).count();
    tiles.windows(2).all(|pair| pair[0] < pair[1]) && tiles.iter().all(|&t| !has_ancestor(t) && siblings(t) < 4)
}

/// What `from_tiles` asks: no number that is no tile's, not empty, one zoom.
pub fn box_list(numbers: &[u64]) -> u64 {
    if entries(numbers) != 0 {
        7
    } else if numbers.is_empty() {
        8
    } else if numbers.iter().any(|&n| place(n).0 != place(numbers[0]).0) {
        9
    } else {
        0
    }
}

pub fn zooms(list: &[u8]) -> u64 {
    if list.iter().any(|&z| z > DEEPEST_IN_LIST) { 1 } else { 0 }
}
