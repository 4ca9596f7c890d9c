//! Lists of tiles: one pass of merging, and both settlings.
use std::collections::HashSet;

use utiles_core::Tile;
use utiles_core::merge as rust;

use crate::floor;
use crate::lists::{ancestors, level, shuffled, under};
use crate::paper::{self, COMPARED, DEEPEST, RMID_END, deepest_of, entry, tile_of};
use crate::record::{List, counted, listed, of_tiles};
use crate::sample::{self, Random, Xyz};
use crate::words::{self, Tiles};

const NONE: u64 = 256;

pub fn write(list: &mut List) {
    let mut random = Random::new();
    for entries in every_floor() {
        for m in (0..=31).chain([255]) {
            calls(list, Some(m), entries.len(), &entries);
        }
        calls(list, None, entries.len(), &entries);
    }
    for entries in lists(&mut random) {
        for m in floors(&mut random, &entries) {
            calls(list, Some(m), entries.len() + random.below(3) as usize, &entries);
        }
        if !entries.is_empty() {
            calls(list, Some(0), random.below(entries.len() as u64) as usize, &entries);
        }
    }
    for entries in at_the_deepest(&mut random) {
        for m in [0, DEEPEST - 2, DEEPEST - 1, DEEPEST] {
            calls(list, Some(m), entries.len() + random.below(3) as usize, &entries);
        }
        calls(list, Some(0), entries.len() - 1, &entries);
    }
    for entries in [vec![RMID_END], vec![RMID_END + 1], vec![u64::MAX], vec![0, RMID_END], vec![64, RMID_END + 77, 0]] {
        calls(list, Some(1), entries.len(), &entries);
        calls(list, Some(1), 0, &entries);
    }
    floor::write(list);
}

// The three functions: the minimum zoom, how many places are lent, and the list.
fn calls(list: &mut List, m: Option<u8>, places: usize, entries: &[u64]) {
    let args = [vec![m.map_or(NONE, u64::from), places as u64], counted(entries)].concat();
    let refusal = paper::tile_list(entries, places);
    let zoom = if refusal == 0 { deepest_of(entries) } else { 0 };
    let set = || entries.iter().map(|&n| Tile::from(tile_of(n))).collect::<HashSet<Tile>>();
    let plain = || entries.iter().map(|&n| paper::place(n)).collect::<Tiles>();
    let least = m.unwrap_or(0);
    let run = || {
        let (merged, changed) = rust::merge(&set(), m);
        [vec![changed.into()], in_order(merged)].concat()
    };
    let words = || {
        let (merged, changed) = words::merge(&plain(), least);
        [vec![changed.into()], plainly(merged)].concat()
    };
    list.both("merge", &args, (refusal, 2), zoom, run, words);
    let run = || in_order(rust::simplify_v1(&set(), m));
    list.both("simplify_v1", &args, (refusal, 1), zoom, run, || plainly(words::simplify_v1(&plain(), least)));
    let run = || in_order(rust::simplify(&set(), m));
    list.both("simplify", &args, (refusal, 1), zoom, run, || plainly(words::simplify(&plain(), least)));
}

/// The tiles of a set, as a list.
pub fn in_order(set: HashSet<Tile>) -> Vec<u64> {
    let mut tiles: Vec<Tile> = set.into_iter().collect();
    tiles.sort();
    of_tiles(&tiles)
}

fn plainly(tiles: Tiles) -> Vec<u64> {
    listed(&tiles.into_iter().map(|(z, x, y)| (x, y, z)).collect::<Vec<Xyz>>())
}

// Lists that are worth every minimum zoom: nothing, the root, the plate, chains, families in families, a parent beside its
// children, and a tile beside descendants at several distances.
fn every_floor() -> Vec<Vec<u64>> {
    let mut random = Random::new();
    let deepest = random.tile(COMPARED);
    let (x, y, _) = random.tile(26);
    let low = (x, y, 26);
    vec![
        vec![],
        vec![0],
        vec![entry((0, 0, 1)), entry((0, 0, 2))],
        level((0, 0, 0), 1),
        level((0, 0, 0), 2),
        ancestors(deepest),
        [vec![entry(deepest)], ancestors(deepest)].concat(),
        [level(low, 2), level((2 * x, 2 * y, 27), 2)].concat(),
        [level(low, 1), level((2 * x, 2 * y, 27), 1)].concat(),
        [vec![entry(low)], level(low, 1), level(low, 3)[..9].to_vec()].concat(),
        [vec![entry((1, 1, 1)), entry((1, 1, 1)), entry((3, 3, 2))], level((0, 1, 1), 1)].concat(),
    ]
}

fn lists(random: &mut Random) -> Vec<Vec<u64>> {
    let mut lists = Vec::new();
    for z in 0..COMPARED {
        let top = random.tile(z);
        let family = level(top, 1);
        lists.extend([family.clone(), family[1..].to_vec(), [vec![entry(top)], family.clone()].concat()]);
        if z + 2 <= COMPARED {
            let mut two = level(top, 2);
            lists.push(two.clone());
            two.remove(random.below(16) as usize);
            lists.push([two, family[..2].to_vec()].concat());
        }
    }
    for down in 3..=4 {
        lists.push(level((0, 0, 0), down));
        lists.push(level(random.tile(COMPARED - down), down)[1..].to_vec());
    }
    // Random tiles of a small part of the map, so that many stand in each other and many are siblings; some come twice.
    for depth in 1..=4u8 {
        for count in [3, 8, 20, 60] {
            for _ in 0..6 {
                let z = random.below(u64::from(COMPARED - depth) + 1) as u8;
                let top = random.tile(z);
                lists.push((0..count).map(|_| under(random, top, depth)).collect());
            }
        }
    }
    lists.iter().map(|entries| shuffled(random, entries)).collect()
}

// Four siblings of the deepest zoom, whole and less one, beside their parent, beside an ancestor and beside all of them; four and three
// such families; random tiles above and among them.
fn at_the_deepest(random: &mut Random) -> Vec<Vec<u64>> {
    let mut lists = Vec::new();
    for top in sample::corners(DEEPEST - 1) {
        lists.extend([level(top, 1), level(top, 1)[1..].to_vec()]);
    }
    let top = random.tile(DEEPEST - 2);
    let parent = (2 * top.0, 2 * top.1 + 1, DEEPEST - 1);
    let family = level(parent, 1);
    lists.extend(
        [vec![entry(parent)], vec![entry(top)], ancestors(parent)].map(|above| [above, family.clone()].concat()),
    );
    lists.extend([level(top, 2), level(top, 2)[4..].to_vec(), [level(top, 1)[..3].to_vec(), family].concat()]);
    for count in [8, 20] {
        lists.push((0..count).map(|_| under(random, top, 2)).collect());
    }
    lists.iter().map(|entries| shuffled(random, entries)).collect()
}

// 0, one of the zooms that the list has or one beside it, and any other.
fn floors(random: &mut Random, entries: &[u64]) -> Vec<u8> {
    let zoom = if entries.is_empty() { 0 } else { tile_of(random.pick(entries)).2 };
    vec![0, zoom.saturating_sub(1 + random.below(2) as u8), zoom + random.below(2) as u8, random.below(32) as u8]
}
