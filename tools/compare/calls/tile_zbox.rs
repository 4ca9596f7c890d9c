//! Boxes of tiles of one zoom.
use utiles_core::Tile;
use utiles_core::tile_zbox::{TileZBox, TileZBoxes};

use crate::entries;
use crate::ffi::*;
use crate::inputs;
use crate::memory::{junk, lend, value};
use crate::paper::{self, COMPARED, MOST_BOXES};
use crate::sample::{Random, Xyz, Zbox};
use crate::tally::Tally;

/// A number of a box, given the box.
type OfBox<T> = extern "C" fn(u8, u32, u32, u32, u32, &mut T) -> u8;
/// Two numbers of a box.
type TwoOfBox = extern "C" fn(u8, u32, u32, u32, u32, &mut u32, &mut u32) -> u8;

pub fn compare(tally: &mut Tally, random: &mut Random) {
    of_tiles(tally, random);
    let area = inputs::area(random);
    of_box(tally, area);
    deeper(tally, random, area);
    contains(tally, random, area);
    run_through(tally, inputs::small_area(random));
    of_boxes(tally, random);
}

fn made((z, minx, maxx, miny, maxy): Zbox) -> TileZBox {
    TileZBox::new(minx, maxx, miny, maxy, z)
}

fn found(area: TileZBox) -> (u8, Zbox) {
    (0, (area.zoom(), area.minx(), area.maxx(), area.miny(), area.maxy()))
}

fn boxed(call: impl FnOnce(&mut u8, &mut u32, &mut u32, &mut u32, &mut u32) -> u8) -> (u8, Zbox) {
    let (mut z, mut minx, mut maxx, mut miny, mut maxy) = (u8::MAX, u32::MAX, u32::MAX, u32::MAX, u32::MAX);
    (call(&mut z, &mut minx, &mut maxx, &mut miny, &mut maxy), (z, minx, maxx, miny, maxy))
}

fn of_tiles(tally: &mut Tally, random: &mut Random) {
    let t = inputs::tile(random);
    let (x, y, z) = t;
    let ours = boxed(|bz, left, right, top, bottom| nori_zbox_from_tile(x, y, z, bz, left, right, top, bottom));
    tally.call("from_tile", t, ours, || found(TileZBox::from_tile(&Tile::new_unchecked(x, y, z))));
    let tiles: Vec<Tile> = (0..=random.below(12)).map(|_| Tile::from(inputs::tile_of(random, z))).collect();
    let sent = entries::of_tiles(&tiles);
    let ours = boxed(|bz, left, right, top, bottom| unsafe {
        nori_zbox_from_tiles(sent.as_ptr(), sent.len(), bz, left, right, top, bottom)
    });
    tally.call("from_tiles", &tiles, ours, || found(TileZBox::from_tiles(&tiles).expect("a box")));
}

fn of_box(tally: &mut Tally, area: Zbox) {
    let (z, minx, maxx, miny, maxy) = area;
    let ours =
        boxed(|bz, left, right, top, bottom| nori_zbox_new(minx, maxx, miny, maxy, z, bz, left, right, top, bottom));
    tally.call("new", area, ours, || found(made(area)));
    let ours =
        boxed(|bz, left, right, top, bottom| nori_zbox_flipy(z, minx, maxx, miny, maxy, bz, left, right, top, bottom));
    tally.call("flipy", area, ours, || found(made(area).flipy()));
    let numbers: [(_, OfBox<u32>, fn(&TileZBox) -> u32); 4] = [
        ("dx", nori_zbox_dx, TileZBox::dx),
        ("dy", nori_zbox_dy, TileZBox::dy),
        ("width", nori_zbox_width, TileZBox::width),
        ("height", nori_zbox_height, TileZBox::height),
    ];
    for (name, ours, theirs) in numbers {
        let ours = value(u32::MAX, |n| ours(z, minx, maxx, miny, maxy, n));
        tally.call(name, area, ours, || (0, theirs(&made(area))));
    }
    let pairs: [(_, TwoOfBox, fn(&TileZBox) -> (u32, u32)); 2] =
        [("dxdy", nori_zbox_dxdy, TileZBox::dxdy), ("dimensions", nori_zbox_dimensions, TileZBox::dimensions)];
    for (name, ours, theirs) in pairs {
        let ours = value((u32::MAX, u32::MAX), |(across, down)| ours(z, minx, maxx, miny, maxy, across, down));
        tally.call(name, area, ours, || (0, theirs(&made(area))));
    }
    // The Rust multiplies in 32 bits.
    if paper::box_length(area) < 1 << 32 {
        let lengths: [(_, OfBox<u64>, fn(&TileZBox) -> u64); 2] =
            [("length", nori_zbox_length, TileZBox::length), ("size", nori_zbox_size, TileZBox::size)];
        for (name, ours, theirs) in lengths {
            let ours = value(u64::MAX, |n| ours(z, minx, maxx, miny, maxy, n));
            tally.call(name, area, ours, || (0, theirs(&made(area))));
        }
    }
}

fn deeper(tally: &mut Tally, random: &mut Random, area: Zbox) {
    let (z, minx, maxx, miny, maxy) = area;
    if z < COMPARED {
        let ours = boxed(|bz, left, right, top, bottom| {
            nori_zbox_zoom_in(z, minx, maxx, miny, maxy, bz, left, right, top, bottom)
        });
        tally.call("zoom_in", area, ours, || found(made(area).zoom_in()));
    }
    let depth = random.below(u64::from(COMPARED - z) + 1) as u8;
    let ours = boxed(|bz, left, right, top, bottom| {
        nori_zbox_zoom_depth(z, minx, maxx, miny, maxy, depth, bz, left, right, top, bottom)
    });
    tally.call("zoom_depth", (area, depth), ours, || found(made(area).zoom_depth(depth)));
}

// A tile at an end of the box, just past it, inside it, or of any zoom.
fn contains(tally: &mut Tally, random: &mut Random, area: Zbox) {
    let (z, minx, maxx, miny, maxy) = area;
    let last = (1 << z) - 1;
    let mut near = |low: u32, high: u32| match random.below(6) {
        0 => low,
        1 => high,
        2 => low.saturating_sub(1),
        3 => last.min(high + 1),
        _ => low + random.below(u64::from(high - low) + 1) as u32,
    };
    let near = (near(minx, maxx), near(miny, maxy), z);
    let t = if random.below(8) == 0 { inputs::tile(random) } else { near };
    let ours = value(9, |told| nori_zbox_contains_tile(z, minx, maxx, miny, maxy, t.0, t.1, t.2, told));
    tally.call("contains_tile", (area, t), ours, || {
        (0, made(area).contains_tile(&Tile::new_unchecked(t.0, t.1, t.2)).into())
    });
}

fn run_through(tally: &mut Tally, area: Zbox) {
    let (z, minx, maxx, miny, maxy) = area;
    let ours = given(|before, count, t, after| {
        nori_zbox_next(z, minx, maxx, miny, maxy, before, count, &mut t.0, &mut t.1, &mut t.2, after)
    });
    tally.call("the iterator, run to its end", area, ours, || (0, made(area).into_iter().collect()));
    let before = u64::from(minx) % (paper::box_length(area) + 1);
    let ours = value(u64::MAX, |length| nori_zbox_size_hint(z, minx, maxx, miny, maxy, before, length));
    tally.call("size_hint", (area, before), ours, || {
        let mut tiles = made(area).into_iter();
        tiles.by_ref().take(before as usize).for_each(drop);
        (0, tiles.size_hint().0 as u64)
    });
}

/// The refusal's number, and all tiles that a cursor gives.
fn given(next: impl Fn(u64, &mut u8, &mut Xyz, &mut u64) -> u8) -> (u8, Vec<Xyz>) {
    let mut tiles = Vec::new();
    let mut before = 0;
    loop {
        let (mut count, mut t, mut after) = (9, (u32::MAX, u32::MAX, u8::MAX), u64::MAX);
        let number = next(before, &mut count, &mut t, &mut after);
        if number != 0 || count == 0 {
            return (number, tiles);
        }
        tiles.push(t);
        before = after;
    }
}

fn of_boxes(tally: &mut Tally, random: &mut Random) {
    let most = random.pick(&[1, 2, 4, MOST_BOXES as u64]);
    let count = random.below(most + 1);
    let areas: Vec<Zbox> =
        (0..count).map(|_| inputs::area(random)).filter(|&area| paper::box_length(area) < 1 << 32).collect();
    let boxes = numbers(&areas);
    let ours = value(u64::MAX, |length| unsafe { nori_zboxes_length(boxes.as_ptr(), boxes.len(), length) });
    tally.call("TileZBoxes::length", &areas, ours, || (0, all(&areas).length()));
    // The Rust shows the tiles of its boxes, and not their edges.
    let areas: Vec<Zbox> = (0..random.below(4)).map(|_| inputs::small_area(random)).collect();
    let boxes = numbers(&areas);
    let ours = given(|before, count, t, after| unsafe {
        nori_zboxes_next(boxes.as_ptr(), boxes.len(), before, count, &mut t.0, &mut t.1, &mut t.2, after)
    });
    tally.call("TileZBoxes::into_iter, run to its end", &areas, ours, || (0, all(&areas).into_iter().collect()));
    let junk = junk(random, boxes.len(), |n| n as u32);
    let (number, count, memory) =
        lend(&junk, |out, places, count| unsafe { nori_zboxes_flipy(boxes.as_ptr(), boxes.len(), out, places, count) });
    let flipped: Vec<Zbox> = memory[..boxes.len()].chunks(5).map(|n| (n[0] as u8, n[1], n[2], n[3], n[4])).collect();
    let shown: Vec<Xyz> = all(&flipped).into_iter().collect();
    let ours = (number, count, shown, &memory[boxes.len()..]);
    tally.call("TileZBoxes::flipy", &areas, ours, || {
        (0, boxes.len() as u64, all(&areas).flipy().into_iter().collect(), &junk[boxes.len()..])
    });
}

fn all(areas: &[Zbox]) -> TileZBoxes {
    TileZBoxes::from(areas.iter().map(|&area| made(area)).collect::<Vec<TileZBox>>())
}

/// Five numbers for each box.
fn numbers(areas: &[Zbox]) -> Vec<u32> {
    areas.iter().flat_map(|&(z, minx, maxx, miny, maxy)| [z.into(), minx, maxx, miny, maxy]).collect()
}
