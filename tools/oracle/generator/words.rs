//! Answers by the papers' words, in wide numbers. Where the Rust is held it must say the same; tiles of zoom 30 it is not asked for.
use std::collections::BTreeSet;

use crate::paper::{self, DEEPEST_IN_LIST, Zxy, box_length, side};
use crate::sample::{Xyz, Zbox};

/// The tile so many columns and rows further on.
pub fn moved((x, y, z): Xyz, across: i64, along: i64) -> Xyz {
    ((i64::from(x) + across) as u32, (i64::from(y) + along) as u32, z)
}

/// The last column of a zoom, and its last row.
pub fn last(z: u8) -> u64 {
    side(z) - 1
}

/// The row counted from the other edge.
pub fn flipy(y: u32, z: u8) -> u32 {
    (last(z) - u64::from(y)) as u32
}

/// Digit 2·(bit of y) + (bit of x), top bit first.
pub fn digits((x, y, z): Xyz) -> Vec<u8> {
    (0..z).rev().map(|bit| 2 * (y >> bit & 1) as u8 + (x >> bit & 1) as u8).collect()
}

/// Each digit as one of bytes 48 to 51.
pub fn key(t: Xyz) -> Vec<u8> {
    digits(t).iter().map(|digit| 48 + digit).collect()
}

pub fn key_tile(key: &[u8]) -> Xyz {
    let digits = key.iter().map(|&byte| u32::from(byte - 48));
    digits.fold((0, 0, 0), |(x, y, z), digit| (2 * x + digit % 2, 2 * y + digit / 2, z + 1))
}

/// 0 and 2 change places, 1 and 3.
pub fn flipped_key(key: &[u8]) -> Vec<u8> {
    key.iter().map(|&byte| if byte < 50 { byte + 2 } else { byte - 2 }).collect()
}

/// n is extra steps: zoom z - 1 - n, and x, y shifted by 1 + n.
pub fn parent((x, y, z): Xyz, n: u8) -> Xyz {
    (x >> (1 + n), y >> (1 + n), z - 1 - n)
}

/// The digits of the 1 + n steps to that ancestor, deepest last: what stands behind the ancestor's key in the tile's, so its end.
pub fn steps(t: Xyz, n: u8) -> Vec<u8> {
    let key = key(t);
    key[key.len() - 1 - usize::from(n)..].to_vec()
}

/// The order in which the four children of a tile are listed.
pub type Family = [(u32, u32); 4];
/// Digits 0, 1, 3, 2.
pub const CLOCKWISE: Family = [(0, 0), (1, 0), (1, 1), (0, 1)];
/// Digits 0, 1, 2, 3.
pub const ZORDER: Family = [(0, 0), (1, 0), (0, 1), (1, 1)];

/// A target zoom up to the tile's gives the tile itself; for a deeper one each child's descendants fill one quarter of the list.
pub fn descendants((x, y, z): Xyz, target: u8, family: Family) -> Vec<Xyz> {
    if target <= z {
        return vec![(x, y, z)];
    }
    family.iter().flat_map(|&(i, j)| descendants((2 * x + i, 2 * y + j, z + 1), target, family)).collect()
}

/// The one beside it, the one above or below it, the one across.
pub fn siblings((x, y, z): Xyz) -> Vec<Xyz> {
    vec![(x ^ 1, y, z), (x, y ^ 1, z), (x ^ 1, y ^ 1, z)]
}

/// From zoom 2 on the list of the kind that the Rust takes the tile for, without what is off the map: it takes no tile for one on the
/// right or the bottom edge.
pub fn neighbors(t: Xyz) -> Vec<Xyz> {
    let steps: &[(i64, i64)] = match t {
        (_, _, 0) => &[],
        (_, _, 1) => return siblings(t),
        (0, 0, _) => &[(1, 0), (0, 1), (1, 1)],
        (0, _, _) => &[(1, 0), (0, 1), (1, 1), (0, -1), (1, -1)],
        (_, 0, _) => &[(1, 0), (0, 1), (1, 1), (-1, 0), (-1, 1)],
        _ => &[(1, 0), (0, 1), (1, 1), (-1, 0), (0, -1), (-1, -1), (1, -1), (-1, 1)],
    };
    let on_map = steps.iter().filter(|&&(across, along)| paper::step(t, across, along) == 0);
    on_map.map(|&(across, along)| moved(t, across, along)).collect()
}

/// From zoom 2 on column by column from the left, each from the top. Past the last column comes the first one.
pub fn neighbors_wrap_x((x, y, z): Xyz) -> Vec<Xyz> {
    match z {
        0 => return vec![],
        1 => return siblings((x, y, z)),
        _ => {}
    }
    let around = (-1..=1).flat_map(|across| (-1..=1).map(move |along| (across, along)));
    let others = around.filter(|&(across, along)| (across, along) != (0, 0) && paper::step((0, y, z), 0, along) == 0);
    others.map(|(across, along)| moved((0, y, z), (i64::from(x) + across).rem_euclid(side(z) as i64), along)).collect()
}

pub fn to_id((x, y, z): Xyz) -> u64 {
    (2 * side(z) * u64::from(y) + u64::from(x)) * 32 + u64::from(z)
}

pub fn from_id(number: u64) -> Xyz {
    let (z, place) = ((number % 32) as u8, number / 32);
    ((place % (2 * side(z))) as u32, (place / (2 * side(z))) as u32, z)
}

pub fn flipped_box((z, minx, maxx, miny, maxy): Zbox) -> Zbox {
    (z, minx, maxx, flipy(maxy, z), flipy(miny, z))
}

pub fn deeper_box((z, minx, maxx, miny, maxy): Zbox, depth: u8) -> Zbox {
    let first = |n: u32| (u64::from(n) << depth) as u32;
    let last = |n: u32| ((u64::from(n) + 1 << depth) - 1) as u32;
    (z + depth, first(minx), last(maxx), first(miny), last(maxy))
}

/// Zoom and both ends of the columns and rows of tiles of one zoom.
pub fn box_around(tiles: &[Xyz]) -> Zbox {
    let ends = |of: fn(&Xyz) -> u32| (tiles.iter().map(of).min().unwrap(), tiles.iter().map(of).max().unwrap());
    let ((minx, maxx), (miny, maxy)) = (ends(|t| t.0), ends(|t| t.1));
    (tiles[0].2, minx, maxx, miny, maxy)
}

pub fn contains((z, minx, maxx, miny, maxy): Zbox, t: Xyz) -> bool {
    t.2 == z && (minx..=maxx).contains(&t.0) && (miny..=maxy).contains(&t.1)
}

/// x first, then y.
pub fn box_tiles((z, minx, maxx, miny, maxy): Zbox) -> Vec<Xyz> {
    (miny..=maxy).flat_map(|y| (minx..=maxx).map(move |x| (x, y, z))).collect()
}

/// The tile behind the first ones of several boxes, one box after the other, each x first, then y; and how many are given then.
pub fn boxes_next(areas: &[Zbox], before: u64) -> Vec<u64> {
    let mut place = before;
    for &(z, minx, maxx, miny, maxy) in areas {
        let length = box_length((z, minx, maxx, miny, maxy));
        if place < length {
            let columns = u64::from(maxx) - u64::from(minx) + 1;
            return vec![1, u64::from(minx) + place % columns, u64::from(miny) + place / columns, z.into(), before + 1];
        }
        place -= length;
    }
    vec![0, 0, 0, 0, before]
}

/// Document 02: every lowest and highest zoom, 0 to 30, with all between them in the set and the ones just outside not.
pub fn runs(set: u32) -> Vec<(u8, u8)> {
    let has = |zoom: u8| zoom <= DEEPEST_IN_LIST && set >> zoom & 1 == 1;
    let below = |low: u8| low > 0 && has(low - 1);
    let highs = |low| (low..=DEEPEST_IN_LIST).map(move |high| (low, high));
    let maximal = |&(low, high): &(u8, u8)| (low..=high).all(has) && !below(low) && !has(high + 1);
    (0..=DEEPEST_IN_LIST).flat_map(highs).filter(maximal).collect()
}

/// Tiles in list order.
pub type Tiles = BTreeSet<Zxy>;

fn ancestor((z, x, y): Zxy, zoom: u8) -> Zxy {
    (zoom, x >> (z - zoom), y >> (z - zoom))
}

/// One pass: tiles of zoom > m in groups of four siblings become the parent. Whether any did.
pub fn merge(set: &Tiles, m: u8) -> (Tiles, bool) {
    let parent = |t: Zxy| ancestor(t, t.0 - 1);
    let siblings = |t: Zxy| set.iter().filter(|s| s.0 == t.0 && parent(**s) == parent(t)).count();
    let joins = |t: Zxy| t.0 > m && siblings(t) == 4;
    let merged = set.iter().map(|&t| if joins(t) { parent(t) } else { t }).collect();
    (merged, set.iter().any(|&t| joins(t)))
}

fn merge_all(set: &Tiles, m: u8) -> Tiles {
    let (merged, changed) = merge(set, m);
    if changed { merge_all(&merged, m) } else { merged }
}

/// A tile of zoom > m is dropped if the set holds one of its ancestors of zoom 0 to z - 1 - m; then `merge` until nothing changes.
pub fn simplify_v1(set: &Tiles, m: u8) -> Tiles {
    let dropped = |t: &Zxy| t.0 > m && (0..t.0 - m).any(|zoom| set.contains(&ancestor(*t, zoom)));
    merge_all(&set.iter().copied().filter(|t| !dropped(t)).collect(), m)
}

/// All ancestors are tested at every m; then tiles are merged wherever the parent's zoom is at least m.
pub fn simplify(set: &Tiles, m: u8) -> Tiles {
    let dropped = |t: &Zxy| (0..t.0).any(|zoom| set.contains(&ancestor(*t, zoom)));
    merge_all(&set.iter().copied().filter(|t| !dropped(t)).collect(), m)
}
