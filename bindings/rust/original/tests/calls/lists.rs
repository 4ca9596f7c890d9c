//! Lists of tiles, where the original has sets.
use std::collections::HashSet;

use noripliers as ours;
use utiles_core::Tile;
use utiles_core::merge as rust;

use super::random::Random;
use super::{COMPARED, all_theirs, tiles};

pub fn compare(random: &mut Random) {
    let top = random.tile();
    let (list, theirs): (Vec<_>, Vec<_>) = (0..random.below(80))
        .map(|_| tiles(under(random, top)))
        .unzip();
    let set: HashSet<Tile> = theirs.into_iter().collect();
    let any = random.option(31);
    let minzoom = random.pick(&[None, Some(0), Some(top.2), Some(top.2 + 1), Some(255), any]);
    let (merged, changed) = ours::merge(&list, minzoom).unwrap();
    let (rust_merged, rust_changed) = rust::merge(&set, minzoom);
    assert_eq!(
        (all_theirs(merged), changed),
        (in_order(rust_merged), rust_changed),
        "{minzoom:?} {list:?}"
    );
    let settled = ours::simplify_v1(&list, minzoom).unwrap();
    assert_eq!(
        all_theirs(settled),
        in_order(rust::simplify_v1(&set, minzoom)),
        "{minzoom:?} {list:?}"
    );
    let settled = ours::simplify(&list, minzoom).unwrap();
    assert_eq!(
        all_theirs(settled),
        in_order(rust::simplify(&set, minzoom)),
        "{minzoom:?} {list:?}"
    );
    let area = ours::Area::settle(&list).unwrap();
    assert_eq!(
        all_theirs(area.tiles()),
        in_order(rust::simplify(&set, None)),
        "{list:?}"
    );
    assert_eq!(ours::area::is_settled(&area.tiles()), Ok(true));
}

/// A tile up to two zooms under another.
fn under(random: &mut Random, (x, y, z): (u32, u32, u8)) -> (u32, u32, u8) {
    let depth = random.below(3).min(u64::from(COMPARED - z)) as u8;
    let place = |random: &mut Random, n: u32| (n << depth) + random.below(1 << depth) as u32;
    (place(random, x), place(random, y), z + depth)
}

fn in_order(set: HashSet<Tile>) -> Vec<Tile> {
    let mut tiles: Vec<Tile> = set.into_iter().collect();
    tiles.sort();
    tiles
}
