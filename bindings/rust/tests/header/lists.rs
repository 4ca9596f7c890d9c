//! Lists of tiles as entries: by document 02 the number of a tile counted row by row.
use crate::deepest::{RMIDS, rmid};

/// The first number that is no tile's.
pub const NO_TILE: u64 = RMIDS;

pub fn entries(tiles: &[(u32, u32, u8)]) -> Vec<u64> {
    tiles.iter().map(|&(x, y, z)| rmid(x, y, z)).collect()
}

/// The entries of quadkeys, in the order given.
pub fn keys(keys: &[impl AsRef<str>]) -> Vec<u64> {
    let entry = |key| {
        let (z, x, y) = place(key);
        rmid(x, y, z as u8)
    };
    keys.iter().map(|key| entry(key.as_ref())).collect()
}

/// The keys by zoom, then column, then row.
pub fn in_order<K: AsRef<str> + Clone>(keys: &[K]) -> Vec<K> {
    let mut keys = keys.to_vec();
    keys.sort_by_key(|key| place(key.as_ref()));
    keys
}

fn place(key: &str) -> (usize, u32, u32) {
    let digit = |(x, y), b: u8| (2 * x + u32::from(b & 1), 2 * y + u32::from(b >> 1 & 1));
    let (x, y) = key.bytes().fold((0, 0), digit);
    (key.len(), x, y)
}
