//! Levels, relatives, neighbours and numbers of tiles.
use utiles_core::{self as rust, Tile};

use crate::paper::{self, COMPARED, DEEPEST, RMID_END};
use crate::record::{List, bytes, caught, listed, of_tile, of_tiles, xyz};
use crate::sample::{self, Random, Xyz};
use crate::words::{self, CLOCKWISE, ZORDER};

// The longest list of descendants that is written.
const MOST: u32 = 256;
// None of an optional number.
const NONE: u64 = 256;

pub fn write(list: &mut List) {
    levels(list);
    parents(list);
    descendants(list);
    around(list);
    bits(list);
    tile_numbers(list);
    row_numbers(list);
}

fn levels(list: &mut List) {
    for z in (0..=33).chain([255]) {
        let run = || {
            let (min, max) = rust::minmax(z);
            vec![min.into(), max.into()]
        };
        list.both("minmax", &[z.into()], (paper::zoom(z), 2), z, run, || vec![0, words::last(z)]);
    }
    for t in sample::every() {
        let (x, y, z) = t;
        // A test, and so never refused.
        let on_map = || vec![(paper::tile(t) == 0).into()];
        list.both("valid", &xyz(t), (0, 1), z, || vec![rust::valid(x, y, z).into()], on_map);
        let (row, told, flipped) = ([y.into(), z.into()], (paper::row(y, z), 1), || vec![words::flipy(y, z).into()]);
        list.both("flipy", &row, told, z, || vec![rust::flipy(y, z).into()], flipped);
        list.both("yflip", &row, told, z, || vec![rust::yflip(y, z).into()], flipped);
    }
}

// Every ancestor of every small tile and of two random tiles of each deeper zoom, and of the others some.
fn parents(list: &mut List) {
    for (i, t) in sample::small().into_iter().enumerate() {
        (0..=t.2).for_each(|n| parent(list, t, Some(n)));
        if i % 8 == 0 {
            [None, Some(t.2 + 1), Some(255)].into_iter().for_each(|n| parent(list, t, n));
        }
    }
    for (i, t) in sample::deep().into_iter().enumerate() {
        let z = t.2;
        let steps = match i % 4 {
            0 => [None, Some(z)],
            1 => [Some(0), Some(z - 1)],
            2 => [Some(1), Some(z / 2)],
            _ => [Some(z + 1), Some(255)],
        };
        steps.into_iter().for_each(|n| parent(list, t, n));
        if z == DEEPEST {
            [0, z / 2, z - 1, z, 255].into_iter().for_each(|n| parent(list, t, Some(n)));
        }
        if i % 8 > 5 {
            (0..=31).chain([255]).for_each(|n| parent(list, t, Some(n)));
        }
    }
    for t in sample::beyond() {
        [None, Some(0), Some(31), Some(255)].into_iter().for_each(|n| parent(list, t, n));
    }
}

// The Rust's None is refusal 3. With more steps than the zoom it passes zero. It answers the tile alone: the digits of the steps are by
// document 02's words whether it is run or not.
fn parent(list: &mut List, t: Xyz, n: Option<u8>) {
    let args = [xyz(t), vec![n.map_or(NONE, u64::from)]].concat();
    let refusal = paper::parent(t, n);
    let extra = n.unwrap_or(0);
    let with_steps = |tile: Vec<u64>| [tile, bytes(&words::steps(t, extra))].concat();
    if paper::tile(t) == 0 && extra <= t.2 {
        let answer = || rust::parent(t.0, t.1, t.2, n).map(of_tile).map(with_steps).ok_or(3);
        list.compare("parent", &args, (refusal, 4), t.2, answer, || with_steps(xyz(words::parent(t, extra))));
    } else {
        list.refuse("parent", &args, refusal, 4);
    }
}

// From zoom 3 on some tiles to each kind of target, so that the list stays short. `children1_zorder` is of every tile.
fn descendants(list: &mut List) {
    for (i, t) in sample::small().into_iter().enumerate() {
        if t.2 < 3 || i % 8 == 0 {
            (0..=4).map(Some).chain([None]).for_each(|target| children(list, t, target));
        }
        if i % 8 == 4 {
            children(list, t, Some(5));
        }
    }
    for (i, t) in sample::deep().into_iter().enumerate() {
        let z = t.2;
        match i % 8 {
            0 => children(list, t, Some(0)),
            1 => children(list, t, Some(z - 1)),
            2 => children(list, t, Some(z)),
            4 if z % 3 == 0 => children(list, t, Some(z + 2)),
            5 if z == 25 => children(list, t, Some(COMPARED)),
            6 => children(list, t, Some(DEEPEST + 1)),
            3 | 7 => children(list, t, None),
            _ => {}
        }
        if z >= DEEPEST - 2 {
            [None, Some(DEEPEST), Some(DEEPEST + 1)].into_iter().for_each(|target| children(list, t, target));
        }
    }
    for t in sample::beyond() {
        [None, Some(0)].into_iter().for_each(|target| children(list, t, target));
    }
    for t in sample::every() {
        let (told, zoom) = ((paper::children(t, None), 1), t.2.saturating_add(1));
        let run = || of_tiles(&rust::children1_zorder(t.0, t.1, t.2));
        list.both("children1_zorder", &xyz(t), told, zoom, run, || listed(&words::descendants(t, zoom, ZORDER)));
    }
}

fn children(list: &mut List, t: Xyz, target: Option<u8>) {
    let (x, y, z) = t;
    let refusal = paper::children(t, target);
    let zoom = target.unwrap_or(z.saturating_add(1)).max(z);
    if refusal == 0 && 4_u32.pow((zoom - z).into()) > MOST {
        return;
    }
    let args = [xyz(t), vec![target.map_or(NONE, u64::from)]].concat();
    let words = |family| move || listed(&words::descendants(t, zoom, family));
    let run = || of_tiles(&rust::children(x, y, z, target));
    list.both("children", &args, (refusal, 1), zoom, run, words(CLOCKWISE));
    let run = || of_tiles(&rust::children_zorder(x, y, z, target));
    list.both("children_zorder", &args, (refusal, 1), zoom, run, words(ZORDER));
}

fn around(list: &mut List) {
    for t in sample::every() {
        let ((x, y, z), told) = (t, (paper::tile(t), 1));
        let beside = || listed(&words::siblings(t));
        list.both("siblings", &xyz(t), (paper::siblings(t), 1), z, || of_tiles(&rust::siblings(x, y, z)), beside);
        let wrapped = || listed(&words::neighbors_wrap_x(t));
        list.both("neighbors_wrap_x", &xyz(t), told, z, || of_tiles(&rust::neighbors_wrap_x(x, y, z)), wrapped);
        if paper::tile(t) == 0 && (2..=COMPARED).contains(&z) && x.max(y) == (1 << z) - 1 {
            edge(list, t);
        } else {
            let around = || listed(&words::neighbors(t));
            list.both("neighbors", &xyz(t), told, z, || of_tiles(&rust::neighbors(x, y, z)), around);
        }
    }
}

// On these edges document 01 strikes out of the Rust's list what is off the map. Its own list must be what remains.
fn edge(list: &mut List, t: Xyz) {
    let ruled = words::neighbors(t);
    list.rule("neighbors", &xyz(t), &listed(&ruled));
    let on_map = |n: &Tile| paper::tile((n.x, n.y, n.z)) == 0;
    let run = caught(|| rust::neighbors(t.0, t.1, t.2).into_iter().filter(on_map).collect::<Vec<Tile>>());
    if run.ok() != Some(ruled.into_iter().map(Tile::from).collect()) {
        list.surprises.push(format!("on the map the Rust has other neighbors: {t:?}"));
    }
}

// Two pairs of words, of which one first differs at a certain bit, or at none, and the other not before.
fn bits(list: &mut List) {
    let mut random = Random::new();
    for bit in (0..=32).flat_map(|bit| [bit; 8]) {
        let from_bit = u32::MAX.checked_shr(bit).unwrap_or(0);
        let after = from_bit >> 1;
        let (a, b) = (random.word(), random.word());
        let differs = a ^ (from_bit & !after) ^ (random.word() & after);
        let later = b ^ (random.word() & after);
        let cell = if random.below(2) == 0 { (a, b, differs, later) } else { (b, a, later, differs) };
        let args = [cell.0, cell.1, cell.2, cell.3].map(u64::from);
        list.call("bbox2zoom", &args, 0, 1, || vec![rust::bbox2zoom(cell).into()]);
    }
    for word in [0, 1, 8, 15, 16, 1 << 31, u32::MAX] {
        list.call("bbox2zoom", &[0, 0, word.into(), 0], 0, 1, || vec![rust::bbox2zoom((0, 0, word, 0)).into()]);
        list.call("bbox2zoom", &[0, word.into(), 0, 0], 0, 1, || vec![rust::bbox2zoom((0, word, 0, 0)).into()]);
    }
}

fn tile_numbers(list: &mut List) {
    let mut random = Random::new();
    let mut numbers: Vec<u64> = (0..=70).collect();
    for t in sample::every() {
        let run = || vec![rust::to_id(t.0, t.1, t.2)];
        list.both("to_id", &xyz(t), (paper::id_tile(t), 1), t.2, run, || vec![words::to_id(t)]);
        if t.2 <= DEEPEST {
            // By document 01's rule, also of x and y off the map: one past the limit, that is no tile's number.
            let place = (2_u64 << t.2).wrapping_mul(t.1.into()).wrapping_add(t.0.into());
            numbers.push(place.wrapping_mul(32).wrapping_add(t.2.into()));
        }
    }
    for z in 0..32 {
        let row = 32 << z;
        numbers.extend([row + z, 2 * row + z, 3 * row + z, (1 << 38) + z, u64::MAX - z, (random.next() & !31) + z]);
    }
    for number in numbers {
        let (told, zoom) = ((paper::id(number), 3), (number % 32) as u8);
        list.both("from_id", &[number], told, zoom, || of_tile(rust::from_id(number)), || xyz(words::from_id(number)));
    }
}

fn row_numbers(list: &mut List) {
    let mut random = Random::new();
    let mut numbers: Vec<u64> = (0..=345).collect();
    for t in sample::every() {
        let run = || vec![rust::xyz2rmid(t.0, t.1, t.2)];
        list.both("xyz2rmid", &xyz(t), (paper::tile(t), 1), t.2, run, || vec![paper::entry(t)]);
    }
    for z in 5..=DEEPEST {
        let first = paper::first_of(z);
        numbers.extend([first - 1, first, first + (1 << z) - 1, first + (1 << z)]);
        numbers.extend((0..3).map(|_| first + random.below(1 << (2 * z))));
    }
    numbers.extend(sample::corners(DEEPEST).map(paper::entry));
    numbers.extend([RMID_END, RMID_END + 1, u64::MAX]);
    for number in numbers {
        let refusal = paper::rmid(number);
        let zoom = if refusal == 0 { paper::tile_of(number).2 } else { DEEPEST };
        let run = || xyz(rust::rmid2xyz(number));
        list.both("rmid2xyz", &[number], (refusal, 3), zoom, run, || xyz(paper::tile_of(number)));
        let run = || {
            let (offset, zoom) = rust::int_2_offset_zoom(number);
            vec![offset, zoom.into()]
        };
        let offset = || vec![number - paper::first_of(zoom), zoom.into()];
        list.both("int_2_offset_zoom", &[number], (refusal, 2), zoom, run, offset);
    }
}
