//! Making, ordering and stepping.
use utiles_core::Tile;

use crate::paper;
use crate::record::{List, of_tile, xyz};
use crate::sample::{self, Random, Xyz};
use crate::words;

// The Rust's names: `up` and `down` move x. What each does to x and y is needed to see where it leaves the map.
const STEPS: [(&str, i64, i64, fn(&Tile) -> Tile); 8] = [
    ("up", 1, 0, Tile::up),
    ("down", -1, 0, Tile::down),
    ("left", 0, -1, Tile::left),
    ("right", 0, 1, Tile::right),
    ("up_left", 1, -1, Tile::up_left),
    ("up_right", 1, 1, Tile::up_right),
    ("down_left", -1, -1, Tile::down_left),
    ("down_right", -1, 1, Tile::down_right),
];

fn made((x, y, z): Xyz) -> Tile {
    Tile::new_unchecked(x, y, z)
}

pub fn write(list: &mut List) {
    for t in sample::every() {
        let (x, y, z) = t;
        let (args, told) = (xyz(t), (paper::tile(t), 3));
        let tried = || of_tile(Tile::try_new(x, y, z).expect("a tile"));
        list.both("try_new", &args, told, z, tried, || xyz(t));
        list.both("flip", &args, told, z, || of_tile(made(t).flip()), || xyz((x, words::flipy(y, z), z)));
        for (name, across, along, step) in STEPS {
            let told = (paper::step(t, across, along), 3);
            list.both(name, &args, told, z, || of_tile(step(&made(t))), || xyz(words::moved(t, across, along)));
        }
    }
    for (a, b) in pairs() {
        let compared = || vec![(made(a).cmp(&made(b)) as i64 + 1) as u64];
        let in_order = || vec![((a.2, a.0, a.1).cmp(&(b.2, b.0, b.1)) as i64 + 1) as u64];
        list.both("cmp", &[xyz(a), xyz(b)].concat(), (0, 1), a.2.max(b.2), compared, in_order);
    }
}

// All pairs of zoom 0 to 2; deeper ones that share some of their three numbers.
fn pairs() -> Vec<(Xyz, Xyz)> {
    let mut random = Random::new();
    let few: Vec<Xyz> = sample::small().into_iter().filter(|t| t.2 <= 2).collect();
    let mut pairs: Vec<(Xyz, Xyz)> = few.iter().flat_map(|&a| few.iter().map(move |&b| (a, b))).collect();
    let deep = sample::deep();
    for &(x, y, z) in &deep {
        let a = (x, y, z);
        let other = random.coordinate(z);
        pairs.extend([(a, (x, other, z)), (a, (other, y, z)), (a, (y, x, z)), (a, random.pick(&deep))]);
        if z < paper::DEEPEST {
            pairs.push((a, (x, y, z + 1)));
        }
    }
    pairs
}
