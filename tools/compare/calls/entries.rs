//! Tiles in the library's lists, by the entries that it says itself: nothing here leans on what these are.
use utiles_core::Tile;

use crate::ffi::nori_entry;

pub fn of_tiles<'a>(tiles: impl IntoIterator<Item = &'a Tile>) -> Vec<u64> {
    tiles.into_iter().map(entry).collect()
}

fn entry(tile: &Tile) -> u64 {
    let mut entry = u64::MAX;
    assert_eq!(nori_entry(tile.x, tile.y, tile.z, &mut entry), 0, "{tile:?} has an entry");
    entry
}
