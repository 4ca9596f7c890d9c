//! The end of the map: its deepest zoom, and the tiles there with their keys and numbers.
use crate::ffi;

/// The deepest zoom.
pub const DEEPEST: u8 = ffi::MAX_ZOOM;

/// How many columns, and rows, it has, and the last of them.
pub const SIDE: u32 = 1 << DEEPEST;
pub const LAST: u32 = SIDE - 1;

/// How many tiles it has.
pub const TILES: u64 = 1 << (2 * DEEPEST);

/// The tiles in its corners, in the order of the digit of which their keys are made.
pub const CORNERS: [(u32, u32); 4] = [(0, 0), (LAST, 0), (0, LAST), (LAST, LAST)];

/// How many digits the longest key has, and the keys of the corners.
pub const DIGITS: usize = DEEPEST as usize;
pub const CORNER_KEYS: [[u8; DIGITS]; 4] = [
    [b'0'; DIGITS],
    [b'1'; DIGITS],
    [b'2'; DIGITS],
    [b'3'; DIGITS],
];

/// One digit more than a key may have.
pub const TOO_LONG: [u8; DIGITS + 1] = [b'0'; DIGITS + 1];

/// The first number that counts a tile no more, row by row from the root on.
pub const RMIDS: u64 = rmid(0, 0, DEEPEST) + TILES;

/// Document 02's numbers, by which all of the above stands.
const _: () = assert!(DEEPEST == 30 && ffi::MAX_ID_ZOOM == 29 && ffi::MAX_BOXES == 8);
const _: () = assert!(RMIDS == 1_537_228_672_809_129_301);

/// The keys of the corners as text.
pub fn corner_keys() -> [String; 4] {
    CORNER_KEYS.map(|key| key.map(char::from).iter().collect())
}

/// The map without the tile of a key: the three siblings of the tile and of each of its ancestors.
pub fn without(key: &str) -> Vec<String> {
    let siblings = |n| {
        let (parent, own) = key[..n].split_at(n - 1);
        let others = ["0", "1", "2", "3"]
            .into_iter()
            .filter(move |&digit| digit != own);
        others.map(move |digit| format!("{parent}{digit}"))
    };
    (1..=key.len()).flat_map(siblings).collect()
}

/// The number of a tile, counted row by row from the root on.
pub const fn rmid(x: u32, y: u32, z: u8) -> u64 {
    ((1 << (2 * z)) - 1) / 3 + x as u64 + ((y as u64) << z)
}
