//! Sets of tiles as bitmaps: of a small window of the map, which of its deepest tiles are in the set.
use crate::paper;
use crate::sample::{Random, Xyz};

/// The places of four children, in order.
pub const CHILDREN: [(u32, u32); 4] = [(0, 0), (0, 1), (1, 0), (1, 1)];

/// A tile of the map, and how many zooms of the tiles under it are looked at.
pub struct Window {
    pub top: Xyz,
    pub depth: u8,
}

impl Window {
    /// A window under a tile of a zoom: in a corner of the map, at its upper edge, or anywhere.
    pub fn placed(random: &mut Random, z: u8, depth: u8) -> Self {
        let last = (1 << z) - 1;
        let (x, y, _) = random.tile(z);
        let places = [(x, y, z), (x, y, z), (x, 0, z), (0, 0, z), (last, last, z), (0, last, z), (last, 0, z)];
        Self { top: random.pick(&places), depth }
    }

    pub fn deepest(&self) -> u8 {
        self.top.2 + self.depth
    }

    fn side(&self) -> usize {
        1 << self.depth
    }

    pub fn all(&self, value: bool) -> Set {
        vec![value; self.side() * self.side()]
    }

    /// The entry of the tile at a place among those `down` zooms below the top.
    pub fn entry(&self, down: u8, i: usize, j: usize) -> u64 {
        let (x, y, z) = self.top;
        paper::entry(((x << down) + i as u32, (y << down) + j as u32, z + down))
    }
}

/// Of each deepest tile of a window, column by column, whether it is in the set.
pub type Set = Vec<bool>;

// The places of the deepest tiles inside the tile at a place among those `down` zooms below the top.
fn inside(window: &Window, down: u8, i: usize, j: usize) -> Vec<usize> {
    let wide = window.side() >> down;
    let column = move |x: usize| (0..wide).map(move |y| x * window.side() + j * wide + y);
    (i * wide..(i + 1) * wide).flat_map(column).collect()
}

pub fn full(window: &Window, set: &Set, down: u8, i: usize, j: usize) -> bool {
    inside(window, down, i, j).iter().all(|&place| set[place])
}

/// The full tiles whose parent is not full.
pub fn settled(window: &Window, set: &Set) -> Vec<u64> {
    let mut entries = Vec::new();
    for down in 0..=window.depth {
        for i in 0..1 << down {
            for j in 0..1 << down {
                let under_full = down > 0 && full(window, set, down - 1, i / 2, j / 2);
                if full(window, set, down, i, j) && !under_full {
                    entries.push(window.entry(down, i, j));
                }
            }
        }
    }
    entries
}

pub fn ground(window: &Window, entries: &[u64]) -> Set {
    let mut set = window.all(false);
    for &entry in entries {
        let (x, y, z) = paper::tile_of(entry);
        let down = z - window.top.2;
        let (i, j) = (x - (window.top.0 << down), y - (window.top.1 << down));
        for place in inside(window, down, i as usize, j as usize) {
            set[place] = true;
        }
    }
    set
}
