//! Making, ordering and stepping.
use utiles_core::Tile;

use crate::ffi::*;
use crate::inputs;
use crate::memory::{placed, value};
use crate::paper;
use crate::sample::{Random, Xyz};
use crate::tally::Tally;

type Step = extern "C" fn(u32, u32, u8, &mut u32, &mut u32, &mut u8) -> u8;

macro_rules! steps {
    ($($name:ident $ours:ident $across:literal $along:literal),*) => {
        // The Rust's names: `up` and `down` move x. What each does to x and y is needed to see where it leaves the map.
        const STEPS: [(&str, i64, i64, fn(&Tile) -> Tile, Step); 8] =
            [$((stringify!($name), $across, $along, Tile::$name, $ours)),*];
    };
}
steps!(up nori_up 1 0, down nori_down -1 0, left nori_left 0 -1, right nori_right 0 1, up_left nori_up_left 1 -1,
    up_right nori_up_right 1 1, down_left nori_down_left -1 -1, down_right nori_down_right -1 1);

fn made((x, y, z): Xyz) -> Tile {
    Tile::new_unchecked(x, y, z)
}

fn found(t: Tile) -> (u8, Xyz) {
    (0, (t.x, t.y, t.z))
}

pub fn compare(tally: &mut Tally, random: &mut Random) {
    let t = inputs::tile(random);
    let (x, y, z) = t;
    let ours = placed(|tx, ty, tz| nori_try_new(x, y, z, tx, ty, tz));
    tally.call("try_new", t, ours, || found(Tile::try_new(x, y, z).expect("a tile")));
    let ours = placed(|tx, ty, tz| nori_flip(x, y, z, tx, ty, tz));
    tally.call("flip", t, ours, || found(made(t).flip()));
    for (name, across, along, step, ours) in STEPS {
        if paper::step(t, across, along) == 0 {
            tally.call(name, t, placed(|tx, ty, tz| ours(x, y, z, tx, ty, tz)), || found(step(&made(t))));
        }
    }
    let other = beside(random, t);
    let ours = value(9, |order| nori_cmp(x, y, z, other.0, other.1, other.2, order));
    tally.call("cmp", (t, other), ours, || (0, (made(t).cmp(&made(other)) as i8 + 1) as u8));
}

/// A tile that shares some of its numbers with another.
fn beside(random: &mut Random, (x, y, z): Xyz) -> Xyz {
    match random.below(5) {
        0 => (x, y, z),
        1 => (x, inputs::coordinate(random, z), z),
        2 => (inputs::coordinate(random, z), y, z),
        3 => (y, x, z),
        _ => inputs::tile(random),
    }
}
