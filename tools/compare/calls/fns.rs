//! Levels, relatives, neighbours and numbers of tiles.
use utiles_core::{self as rust, Tile};

use crate::entries::of_tiles;
use crate::ffi::*;
use crate::inputs;
use crate::memory::{junk, lend, placed, value, written};
use crate::paper::{self, COMPARED};
use crate::sample::{Random, Xyz};
use crate::tally::Tally;

/// A call that writes a list of tiles, of which nothing but the tile is asked.
type List = unsafe extern "C" fn(u32, u32, u8, *mut u64, usize, &mut u64) -> u8;

/// The deepest that descendants are asked for, below the tile.
const DOWN: u64 = 4;

pub fn compare(tally: &mut Tally, random: &mut Random) {
    let t = inputs::tile(random);
    level(tally, random, t);
    parent(tally, random, t);
    descendants(tally, random, t);
    around(tally, random, t);
    bits(tally, random);
    numbers(tally, random, t);
}

fn level(tally: &mut Tally, random: &mut Random, (x, y, z): Xyz) {
    let mut limits = (u32::MAX, 0);
    let number = nori_minmax(z, &mut limits.0, &mut limits.1);
    tally.call("minmax", z, (number, limits), || (0, rust::minmax(z)));
    // A test, and so of any column and row, though of no zoom past the deepest.
    let (a, b) = match random.below(4) {
        0 | 1 => (x, y),
        2 => (x, 1 << z),
        _ => (inputs::word(random), inputs::word(random)),
    };
    tally.call("valid", (a, b, z), value(9, |told| nori_valid(a, b, z, told)), || (0, rust::valid(a, b, z).into()));
    tally.call("flipy", (y, z), value(u32::MAX, |row| nori_flipy(y, z, row)), || (0, rust::flipy(y, z)));
    tally.call("yflip", (y, z), value(u32::MAX, |row| nori_yflip(y, z, row)), || (0, rust::yflip(y, z)));
}

// The Rust's None is refusal 3. As the number of steps None is 0. The Rust gives the digits of the steps only as the end of a key.
fn parent(tally: &mut Tally, random: &mut Random, t: Xyz) {
    let (x, y, z) = t;
    let n = match random.below(4) {
        0 => None,
        1 => Some(z),
        _ => Some(random.below(u64::from(z) + 1) as u8),
    };
    let beyond = n.unwrap_or(0);
    let (mut digits, mut count) = ([u8::MAX; MAX_DIGITS], u8::MAX);
    let ours = placed(|tx, ty, tz| nori_parent(x, y, z, beyond, tx, ty, tz, &mut digits, &mut count));
    tally.call("parent", (t, n), ours, || match rust::parent(x, y, z, n) {
        Some(t) => (0, (t.x, t.y, t.z)),
        None => (3, (0, 0, 0)),
    });
    tally.call("parent, digits beside xyz2quadkey", (t, n), (digits, count), || {
        let mut ending = [0; MAX_DIGITS];
        if rust::parent(x, y, z, n).is_none() {
            return (ending, 0);
        }
        let key = rust::xyz2quadkey(x, y, z);
        let taken = &key.as_bytes()[usize::from(z - 1 - beyond)..];
        ending[..taken.len()].copy_from_slice(taken);
        (ending, 1 + beyond)
    });
}

// As a target None is z + 1.
fn descendants(tally: &mut Tally, random: &mut Random, t: Xyz) {
    let (x, y, z) = t;
    if z < COMPARED {
        listed(tally, random, "children1_zorder", t, 4, nori_children1_zorder, || {
            rust::children1_zorder(x, y, z).to_vec()
        });
    }
    let target = match random.below(8) {
        0 => None,
        1 => Some(random.below(u64::from(z) + 1) as u8),
        2 | 3 => Some(z + random.below(DOWN + 1) as u8),
        _ => Some(z + random.below(2) as u8),
    };
    let zoom = target.unwrap_or(z + 1);
    if zoom > COMPARED {
        return;
    }
    let junk = junk(random, 4_usize.pow(zoom.saturating_sub(z).into()), |n| n);
    let ours = lend(&junk, |out, places, count| unsafe { nori_children(x, y, z, zoom, out, places, count) });
    tally.call("children", (t, target), ours, || written(&junk, &of_tiles(&rust::children(x, y, z, target))));
    let ours = lend(&junk, |out, places, count| unsafe { nori_children_zorder(x, y, z, zoom, out, places, count) });
    tally.call("children_zorder", (t, target), ours, || {
        written(&junk, &of_tiles(&rust::children_zorder(x, y, z, target)))
    });
}

fn listed(
    tally: &mut Tally,
    random: &mut Random,
    name: &'static str,
    t: Xyz,
    most: usize,
    ours: List,
    theirs: impl FnOnce() -> Vec<Tile>,
) {
    let junk = junk(random, most, |n| n);
    let ours = lend(&junk, |out, places, count| unsafe { ours(t.0, t.1, t.2, out, places, count) });
    tally.call(name, t, ours, || written(&junk, &of_tiles(&theirs())));
}

// On the right and bottom edges from zoom 2 on, document 01 has the Rust's list with the tiles off the map struck out.
fn around(tally: &mut Tally, random: &mut Random, t: Xyz) {
    let (x, y, z) = t;
    if z > 0 {
        listed(tally, random, "siblings", t, 3, nori_siblings, || rust::siblings(x, y, z));
    }
    listed(tally, random, "neighbors_wrap_x", t, 8, nori_neighbors_wrap_x, || rust::neighbors_wrap_x(x, y, z));
    if z >= 2 && x.max(y) == (1 << z) - 1 {
        let on_map = |t: &Tile| paper::tile((t.x, t.y, t.z)) == 0;
        let struck = || rust::neighbors(x, y, z).into_iter().filter(on_map).collect();
        listed(tally, random, "neighbors, off-map tiles struck out", t, 8, nori_neighbors, struck);
    } else {
        listed(tally, random, "neighbors", t, 8, nori_neighbors, || rust::neighbors(x, y, z));
    }
}

// Two pairs of words, of which one first differs at a certain bit, or at none, and the other not before; or any four.
fn bits(tally: &mut Tally, random: &mut Random) {
    let from_bit = u32::MAX.checked_shr(random.below(33) as u32).unwrap_or(0);
    let after = from_bit >> 1;
    let (a, b) = (inputs::word(random), inputs::word(random));
    let differs = a ^ (from_bit & !after) ^ (random.word() & after);
    let later = b ^ (random.word() & after);
    let corners = match random.below(5) {
        0 => (a, b, inputs::word(random), inputs::word(random)),
        1 | 2 => (a, b, differs, later),
        _ => (b, a, later, differs),
    };
    let (west, south, east, north) = corners;
    let ours = value(u8::MAX, |zoom| nori_bbox2zoom(west, south, east, north, zoom));
    tally.call("bbox2zoom", corners, ours, || (0, rust::bbox2zoom(corners)));
}

fn numbers(tally: &mut Tally, random: &mut Random, t: Xyz) {
    let (x, y, z) = t;
    tally.call("to_id", t, value(u64::MAX, |id| nori_to_id(x, y, z, id)), || (0, rust::to_id(x, y, z)));
    tally.call("xyz2rmid", t, value(u64::MAX, |rmid| nori_xyz2rmid(x, y, z, rmid)), || (0, rust::xyz2rmid(x, y, z)));
    // By document 01's rule.
    let id = ((2_u64 << z) * u64::from(y) + u64::from(x)) * 32 + u64::from(z);
    let ours = placed(|tx, ty, tz| nori_from_id(id, tx, ty, tz));
    tally.call("from_id", id, ours, || {
        let t = rust::from_id(id);
        (0, (t.x, t.y, t.z))
    });
    let rmid = row_number(random);
    let ours = placed(|tx, ty, tz| nori_rmid2xyz(rmid, tx, ty, tz));
    tally.call("rmid2xyz", rmid, ours, || (0, rust::rmid2xyz(rmid)));
    let mut place = (u64::MAX, u8::MAX);
    let number = nori_int_2_offset_zoom(rmid, &mut place.0, &mut place.1);
    tally.call("int_2_offset_zoom", rmid, (number, place), || (0, rust::int_2_offset_zoom(rmid)));
}

// A number of any zoom: its first, its last, or any.
fn row_number(random: &mut Random) -> u64 {
    let z = inputs::zoom(random);
    let first = paper::first_of(z);
    match random.below(6) {
        0 => first,
        1 => 4 * first,
        2 => first + (1 << z),
        _ => first + random.below(1 << (2 * z)),
    }
}
