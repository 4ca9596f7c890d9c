//! Lists of tiles: one pass of merging, and both settlings.
use std::collections::HashSet;

use utiles_core::Tile;
use utiles_core::merge as rust;

use crate::entries;
use crate::ffi::*;
use crate::inputs;
use crate::lists::{ancestors, level, shuffled, under};
use crate::memory::{Lent, junk, lend};
use crate::paper::{COMPARED, entry, tile_of};
use crate::sample::Random;
use crate::tally::Tally;

type Settling = unsafe extern "C" fn(*const u64, usize, u8, *mut u64, usize, &mut u64) -> u8;

pub fn compare(tally: &mut Tally, random: &mut Random) {
    let list = list(random);
    let list = if random.below(4) == 0 { list } else { shuffled(random, &list) };
    let m = floor(random, &list);
    let tiles: Vec<Tile> = list.iter().map(|&n| Tile::from(tile_of(n))).collect();
    let sent = entries::of_tiles(&tiles);
    let set: HashSet<Tile> = tiles.into_iter().collect();
    let lent = junk(random, list.len(), |n| n);
    let least = m.unwrap_or(0);
    let mut changed = 9;
    let ours = lend(&lent, |out, places, count| unsafe {
        nori_merge(sent.as_ptr(), sent.len(), least, out, places, count, &mut changed)
    });
    tally.call("merge", (m, &list), (ours, changed), || {
        let (merged, changed) = rust::merge(&set, m);
        (settled(&lent, &list, merged), changed.into())
    });
    let settlings: [(_, Settling, fn(&HashSet<Tile>, Option<u8>) -> HashSet<Tile>); 2] =
        [("simplify_v1", nori_simplify_v1, rust::simplify_v1), ("simplify", nori_simplify, rust::simplify)];
    for (name, ours, theirs) in settlings {
        let ours =
            lend(&lent, |out, places, count| unsafe { ours(sent.as_ptr(), sent.len(), least, out, places, count) });
        tally.call(name, (m, &list), ours, || settled(&lent, &list, theirs(&set, m)));
    }
}

/// The set in order, zeros up to as many places as the list has entries, and behind them what was there.
fn settled(lent: &[u64], list: &[u64], set: HashSet<Tile>) -> Lent<u64> {
    let mut tiles: Vec<Tile> = set.into_iter().collect();
    tiles.sort();
    let mut memory = entries::of_tiles(&tiles);
    memory.resize(list.len(), 0);
    memory.extend(&lent[list.len()..]);
    (0, tiles.len() as u64, memory)
}

// Chains of ancestors; families whole and broken, in each other and beside their parents; tiles of a small part of the
// map, and of all of it.
fn list(random: &mut Random) -> Vec<u64> {
    let depth = 1 + random.below(4) as u8;
    let top = {
        let z = random.below(u64::from(COMPARED - depth) + 1) as u8;
        inputs::tile_of(random, z)
    };
    let (x, y, z) = top;
    match random.below(8) {
        0 => [ancestors(top), vec![entry(top)]].concat()[random.below(u64::from(z) + 1) as usize..].to_vec(),
        1 => level(top, 1),
        2 => [level(top, 1)[random.below(2) as usize..].to_vec(), level((2 * x, 2 * y, z + 1), depth - 1)].concat(),
        3 => {
            let mut all = level(top, depth.min(3));
            all.remove(random.below(all.len() as u64) as usize);
            all.extend((0..random.below(3)).map(|_| under(random, top, depth)));
            all
        }
        4 => (0..random.below(12)).map(|_| entry(inputs::tile(random))).collect(),
        _ => {
            let count = random.pick(&[2, 5, 9, 20, 60]);
            (0..count).map(|_| under(random, top, depth)).collect()
        }
    }
}

// A zoom that the list has or one beside it, any up to 31, 255, 0 or None.
fn floor(random: &mut Random, list: &[u64]) -> Option<u8> {
    let zoom = if list.is_empty() { 0 } else { tile_of(random.pick(list)).2 };
    match random.below(8) {
        0 => None,
        1 | 2 => Some(0),
        3 => Some(zoom.saturating_sub(random.below(3) as u8)),
        4 => Some(zoom + random.below(2) as u8),
        5 => Some(255),
        _ => Some(random.below(32) as u8),
    }
}
