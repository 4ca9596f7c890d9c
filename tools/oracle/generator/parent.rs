//! The cursor over a tile's ancestors, run to its end.
use utiles_core::{Tile, TileParent};

use crate::lists::ancestors;
use crate::paper;
use crate::record::{List, counted, of_tiles, xyz};
use crate::sample;

pub fn write(list: &mut List) {
    for t in sample::every() {
        let run = || of_tiles(&Tile::new_unchecked(t.0, t.1, t.2).iter_parents().collect::<Vec<Tile>>());
        list.both("iter_parents", &xyz(t), (paper::tile(t), 1), t.2, run, || counted(&ancestors(t)));
    }
}
