//! The cursor over a tile's ancestors, run to its end.
use utiles_core::{Tile, TileParent};

use crate::ffi::*;
use crate::inputs;
use crate::sample::{Random, Xyz};
use crate::tally::Tally;

/// What a cursor holds: how many tiles, 0 or 1, and that tile.
type Held = (u8, Xyz);

const ANY: Held = (9, (u32::MAX, u32::MAX, u8::MAX));

pub fn compare(tally: &mut Tally, random: &mut Random) {
    let (x, y, z) = inputs::tile(random);
    let parents = || Tile::new_unchecked(x, y, z).iter_parents().map(|t| (t.x, t.y, t.z)).collect::<Vec<Xyz>>();
    tally.call("iter_parents, run to its end", (x, y, z), given((x, y, z)), || (0, parents()));
}

/// The refusal's number, and all tiles that the cursor gives.
fn given((x, y, z): Xyz) -> (u8, Vec<Xyz>) {
    let mut tiles = Vec::new();
    let (mut count, mut t) = ANY;
    let mut number = nori_iter_parents(x, y, z, &mut count, &mut t.0, &mut t.1, &mut t.2);
    let mut cursor = (count, t);
    while number == 0 {
        let ((mut count, mut t), (mut left, mut rest)) = (ANY, ANY);
        number = nori_parents_next(
            cursor.0,
            cursor.1.0,
            cursor.1.1,
            cursor.1.2,
            &mut count,
            &mut t.0,
            &mut t.1,
            &mut t.2,
            &mut left,
            &mut rest.0,
            &mut rest.1,
            &mut rest.2,
        );
        cursor = (left, rest);
        if count == 0 {
            break;
        }
        tiles.push(t);
    }
    // At its end a cursor is all zeros. What else it holds is shown as one tile more, which the Rust does not have.
    if number == 0 && cursor != (0, (0, 0, 0)) {
        tiles.push(cursor.1);
    }
    (number, tiles)
}
