//! Lists settled above a floor: the minimum zoom m of `simplify`, where every tile listed has zoom m or more. Each answer is
//! read off a bitmap of the list's ground.
use std::collections::HashSet;

use utiles_core::Tile;
use utiles_core::merge as rust;

use crate::lists::{level, mixed, shuffled, under};
use crate::merge::in_order;
use crate::paper::{self, COMPARED, DEEPEST, deepest_of, entry, tile_of};
use crate::record::{List, caught, counted};
use crate::sample::{Random, Xyz};
use crate::window::{CHILDREN, Set, Window, full, ground, settled};
use crate::words::{self, Tiles};

// How many zooms a window has above the floor and below it, at most.
const ABOVE: u8 = 3;
const BELOW: u8 = 3;
// How many entries a list has at most whose ground is handed in once more, by other tiles.
const SHORT: usize = 16;

pub fn write(list: &mut List) {
    let mut random = Random::new();
    for m in 0..=DEEPEST {
        for step in 0..=ABOVE {
            // Over the floors, each number of zooms above meets each number below.
            let (above, below) = (step.min(m), (BELOW - (m + step) % (BELOW + 1)).min(DEEPEST - m));
            let window = Window::placed(&mut random, m - above, above + below);
            rows(list, &mut random, &window, m);
        }
    }
}

fn rows(list: &mut List, random: &mut Random, window: &Window, m: u8) {
    row(list, window, m, 1, &[]);
    for kind in [less_one, broken] {
        let entries = kind(random, window, m);
        row(list, window, m, lent(random, &entries), &mixed(random, entries));
    }
    for kind in [whole, joined, loose] {
        let entries = kind(random, window, m);
        twice(list, random, window, m, entries);
    }
}

// A list, and if it is short another one of the same ground, which must be answered alike.
fn twice(list: &mut List, random: &mut Random, window: &Window, m: u8, entries: Vec<u64>) {
    let first = mixed(random, entries);
    let answer = row(list, window, m, lent(random, &first), &first);
    if first.len() > SHORT {
        return;
    }
    let same = cut(random, window, &first);
    let second = shuffled(random, &same);
    if row(list, window, m, lent(random, &second), &second) != answer {
        list.surprises.push(format!("equal ground and unequal lists at {m}: {first:?}, {second:?}"));
    }
}

// As many places as there are entries, or a few more.
fn lent(random: &mut Random, entries: &[u64]) -> usize {
    entries.len() + random.pick(&[0, 0, 0, 1, 2, 3])
}

// Writes the call that settles a list at m. Gives its answer.
fn row(list: &mut List, window: &Window, m: u8, places: usize, entries: &[u64]) -> Vec<u64> {
    let set = ground(window, entries);
    let answer = read_off(window, &set, m);
    let length = least(window, &set, m, (0, 0, 0));
    let tiles = |entries: &[u64]| entries.iter().map(|&entry| paper::place(entry)).collect::<Tiles>();
    let ways = [
        ("the list settled at 0 and cut down", cut_down(&settled(window, &set), m) == answer),
        ("the least exact cover", ground(window, &answer) == set && answer.len() == length),
        ("the call by document 01's words", words::simplify(&tiles(entries), m) == tiles(&answer)),
        ("the Rust", deepest_of(entries) > COMPARED || run(entries, m) == Some(counted(&answer))),
    ];
    for (way, _) in ways.iter().filter(|(_, same)| !same) {
        list.surprises.push(format!("{way} is otherwise than the bitmap at {m}: {entries:?}"));
    }
    let args = [vec![m.into(), places as u64], counted(entries)].concat();
    list.claim("simplify", &args, &counted(&answer));
    answer
}

// The full tiles of zoom m or deeper whose parent is not full or lies above the floor.
fn read_off(window: &Window, set: &Set, m: u8) -> Vec<u64> {
    let first = m - window.top.2;
    let under_full = |down, i, j| down > first && full(window, set, down - 1, i / 2, j / 2);
    let kept = |&(down, i, j): &(u8, usize, usize)| full(window, set, down, i, j) && !under_full(down, i, j);
    (first..=window.depth).flat_map(places).filter(kept).map(|(down, i, j)| window.entry(down, i, j)).collect()
}

// The places of the tiles so many zooms below the top, in order.
fn places(down: u8) -> impl Iterator<Item = (u8, usize, usize)> {
    let side = 1 << down;
    (0..side * side).map(move |n| (down, n / side, n % side))
}

// A list settled at 0 with each tile above the floor replaced by its descendants at m, all put in order.
fn cut_down(settled: &[u64], m: u8) -> Vec<u64> {
    let at_floor =
        |&entry| if tile_of(entry).2 < m { level(tile_of(entry), m - tile_of(entry).2) } else { vec![entry] };
    let mut entries: Vec<u64> = settled.iter().flat_map(at_floor).collect();
    entries.sort_by_key(|&entry| paper::place(entry));
    entries
}

// The least length of an exact cover by tiles of zoom m or deeper, of what is in the set inside the tile at a place. A tile
// that is smaller than the window's deepest ones makes none shorter.
fn least(window: &Window, set: &Set, m: u8, (down, i, j): (u8, usize, usize)) -> usize {
    let one = full(window, set, down, i, j) && window.top.2 + down >= m;
    if down == window.depth {
        return one.into();
    }
    let under = |(a, b): (u32, u32)| least(window, set, m, (down + 1, 2 * i + a as usize, 2 * j + b as usize));
    let four: usize = CHILDREN.map(under).iter().sum();
    if one { four.min(1) } else { four }
}

// What the Rust gives, unless it stops.
fn run(entries: &[u64], m: u8) -> Option<Vec<u64>> {
    let tiles: HashSet<Tile> = entries.iter().map(|&entry| Tile::from(tile_of(entry))).collect();
    caught(|| in_order(rust::simplify(&tiles, Some(m)))).ok()
}

// A tile of the window.
fn tile(random: &mut Random, window: &Window, z: u8) -> Xyz {
    let (x, y, top) = window.top;
    (random.within(x, z - top), random.within(y, z - top), z)
}

// The whole window, by its tiles at the floor.
fn whole(_: &mut Random, window: &Window, m: u8) -> Vec<u64> {
    level(window.top, m - window.top.2)
}

// The whole window less one deepest tile.
fn less_one(random: &mut Random, window: &Window, m: u8) -> Vec<u64> {
    let tiles = whole(random, window, m);
    let mut entries = cut(random, window, &tiles);
    entries.pop();
    entries
}

// The same ground: a tile gives way to its four children, one of them to its own, and so on, down to a deepest tile, which
// comes last.
fn cut(random: &mut Random, window: &Window, entries: &[u64]) -> Vec<u64> {
    let mut entries = entries.to_vec();
    let mut tile = random.pick(&entries);
    entries.retain(|&entry| entry != tile);
    for _ in tile_of(tile).2..window.deepest() {
        entries.extend(level(tile_of(tile), 1));
        tile = entries.remove(entries.len() - 1 - random.below(4) as usize);
    }
    entries.push(tile);
    entries
}

// A tile right above the floor, by its descendants right below it: they join up to the floor, and no further. Where the
// window has no zoom above the floor, or none below, the floor's own is taken.
fn joined(random: &mut Random, window: &Window, m: u8) -> Vec<u64> {
    let (high, low) = (window.top.2.max(m.saturating_sub(1)), window.deepest().min(m + 1));
    level(tile(random, window, high), low - high)
}

// The same descendants less one.
fn broken(random: &mut Random, window: &Window, m: u8) -> Vec<u64> {
    let mut entries = joined(random, window, m);
    entries.remove(random.below(entries.len() as u64) as usize);
    entries
}

// A few tiles of the floor's zoom or deeper: single ones, some with one inside, and families whole and less one.
fn loose(random: &mut Random, window: &Window, m: u8) -> Vec<u64> {
    let mut entries = Vec::new();
    for _ in 0..2 + random.below(4) {
        let z = m + random.below(u64::from(window.deepest() - m) + 1) as u8;
        let (x, y, z) = tile(random, window, z);
        let family = if z > window.top.2 { level((x / 2, y / 2, z - 1), 1) } else { vec![entry((x, y, z))] };
        match random.below(4) {
            0 => entries.extend(family),
            1 => entries.extend(family.iter().take(3)),
            2 => entries.extend([entry((x, y, z)), under(random, (x, y, z), window.deepest() - z)]),
            _ => entries.push(entry((x, y, z))),
        }
    }
    entries
}
