//! The calls that are made of both.
mod bbox;
mod lists;
mod random;
mod tile;
mod tile_zbox;
mod zoom;

use random::Random;

const TURNS: usize = 4000;

/// The deepest zoom that is compared, and the longest key: the original refuses longer keys, and
/// the numbers of its `to_id` do not fit 64 bits at the next zoom.
const COMPARED: u8 = 29;

pub fn run() {
    let mut random = Random::new(7);
    for _ in 0..TURNS {
        tile::compare(&mut random);
        tile_zbox::compare(&mut random);
        zoom::compare(&mut random);
        bbox::compare(&mut random);
    }
    for _ in 0..TURNS / 4 {
        lists::compare(&mut random);
    }
    zoom::runs_that_differ();
}

/// A tile of both.
fn tiles((x, y, z): (u32, u32, u8)) -> (noripliers::Tile, utiles_core::Tile) {
    let ours = noripliers::Tile::new(x, y, z).expect("a tile of the map");
    (ours, utiles_core::Tile::new(x, y, z))
}

/// Our tile as the original's.
fn theirs(tile: noripliers::Tile) -> utiles_core::Tile {
    utiles_core::Tile::new(tile.x(), tile.y(), tile.z())
}

fn all_theirs(tiles: Vec<noripliers::Tile>) -> Vec<utiles_core::Tile> {
    tiles.into_iter().map(theirs).collect()
}
