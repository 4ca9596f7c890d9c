//! Boxes of tiles of one zoom.
use utiles_core::Tile;
use utiles_core::tile_zbox::{TileZBox, TileZBoxes};

use crate::paper::{self, COMPARED, DEEPEST, MOST_BOXES, RMID_END};
use crate::record::{List, counted, listed, of_tiles, xyz};
use crate::sample::{self, Random, Xyz, Zbox};
use crate::words;

// Boxes that the iterator is run over hold at most this many tiles.
const MOST: u64 = 36;
// All of zoom 0, all of the deepest zoom, and a box one zoom deeper.
const ROOT: Zbox = (0, 0, 0, 0, 0);
const WHOLE: Zbox = (DEEPEST, 0, (1 << DEEPEST) - 1, 0, (1 << DEEPEST) - 1);
const TOO_DEEP: Zbox = (DEEPEST + 1, 0, 0, 0, 0);

pub fn write(list: &mut List) {
    from_tiles(list);
    for (i, area) in [sample::boxes(), sample::no_boxes()].concat().into_iter().enumerate() {
        of_box(list, area);
        depths(list, area, i);
        hints(list, area, i);
    }
    contains(list);
    sums(list);
    walks(list);
}

fn made((z, minx, maxx, miny, maxy): Zbox) -> TileZBox {
    TileZBox::new(minx, maxx, miny, maxy, z)
}

fn numbers((z, minx, maxx, miny, maxy): Zbox) -> Vec<u64> {
    vec![z.into(), minx.into(), maxx.into(), miny.into(), maxy.into()]
}

fn of_made(area: TileZBox) -> Vec<u64> {
    numbers((area.zoom(), area.minx(), area.maxx(), area.miny(), area.maxy()))
}

fn pair((a, b): (u32, u32)) -> Vec<u64> {
    vec![a.into(), b.into()]
}

fn from_tiles(list: &mut List) {
    for t in sample::every() {
        let run = || of_made(TileZBox::from_tile(&Tile::new_unchecked(t.0, t.1, t.2)));
        list.both("from_tile", &xyz(t), (paper::tile(t), 5), t.2, run, || numbers(words::box_around(&[t])));
    }
    for entries in box_lists() {
        let refusal = paper::box_list(&entries);
        let tiles: Vec<Xyz> = if refusal == 0 { entries.iter().map(|&n| paper::tile_of(n)).collect() } else { vec![] };
        let run = || {
            let tiles: Vec<Tile> = tiles.iter().copied().map(Tile::from).collect();
            of_made(TileZBox::from_tiles(&tiles).expect("a box"))
        };
        let zoom = tiles.first().map_or(0, |t| t.2);
        list.both("from_tiles", &counted(&entries), (refusal, 5), zoom, run, || numbers(words::box_around(&tiles)));
    }
}

// Single tiles and pairs; the corners of the deepest zoom; of every zoom some tiles, alone and with one at the end or at the start that
// is of another zoom or is no entry.
fn box_lists() -> Vec<Vec<u64>> {
    let mut random = Random::new();
    let single = [&[][..], &[0], &[0, 0], &[0, 1], &[1, 0], &[RMID_END - 1], &[RMID_END], &[RMID_END, 0]];
    let mut lists: Vec<Vec<u64>> = single.map(<[u64]>::to_vec).to_vec();
    lists.push(sample::corners(DEEPEST).map(paper::entry).to_vec());
    for z in 0..=DEEPEST {
        for length in [1, 2, 3, 4, 8, 16] {
            let good: Vec<u64> = (0..length).map(|_| paper::entry(random.tile(z))).collect();
            let other = paper::entry(random.tile((z + 1) % (DEEPEST + 1)));
            let bad = [other, u64::MAX, RMID_END + random.below(1000)][length as usize % 3];
            lists.extend([[&good[..], &[bad]].concat(), [&[bad], &good[..]].concat(), good]);
        }
    }
    lists
}

fn of_box(list: &mut List, area: Zbox) {
    let (args, z) = (numbers(area), area.0);
    let refusal = paper::zbox(area);
    let ends = || (u64::from(area.2 - area.1), u64::from(area.4 - area.3));
    list.both("flipy", &args, (refusal, 5), z, || of_made(made(area).flipy()), || numbers(words::flipped_box(area)));
    list.both(
        "dimensions",
        &args,
        (refusal, 2),
        z,
        || pair(made(area).dimensions()),
        || vec![ends().0 + 1, ends().1 + 1],
    );
    list.both("dxdy", &args, (refusal, 2), z, || pair(made(area).dxdy()), || vec![ends().0, ends().1]);
    let length = || vec![paper::box_length(area)];
    // The Rust multiplies in 32 bits.
    if refusal == 0 && paper::box_length(area) >= 1 << 32 {
        list.rule("length", &args, &length());
    } else {
        list.both("length", &args, (refusal, 1), z, || vec![made(area).length()], length);
    }
    if refusal != 0 || paper::box_length(area) <= MOST {
        let run = || of_tiles(&made(area).into_iter().map(Tile::from).collect::<Vec<Tile>>());
        list.both("iter", &args, (refusal, 1), z, run, || listed(&words::box_tiles(area)));
    }
}

// Two depths or three for each box, in turn: the deepest zoom on which the Rust is held, and the two past it, are among those reached.
fn depths(list: &mut List, area: Zbox, turn: usize) {
    let args = numbers(area);
    let deeper = |depth| move || numbers(words::deeper_box(area, depth));
    let reached = |depth| area.0.saturating_add(depth);
    list.both("zoom_in", &args, (paper::deeper(area, 1), 5), reached(1), || of_made(made(area).zoom_in()), deeper(1));
    let left = COMPARED.saturating_sub(area.0);
    let depths: [&[u8]; 5] =
        [&[0, left + 1, left + 2], &[1, left / 2], &[2, left], &[left, 255 - area.0], &[left / 3, 255]];
    for &depth in depths[turn % 5] {
        let args = [&args[..], &[depth.into()]].concat();
        let run = || of_made(made(area).zoom_depth(depth));
        list.both("zoom_depth", &args, (paper::deeper(area, depth), 5), reached(depth), run, deeper(depth));
    }
}

// Two cursors for each box, in turn. The Rust is not run through long boxes, and it multiplies in 32 bits.
fn hints(list: &mut List, area: Zbox, turn: usize) {
    let refusal = paper::zbox(area);
    let length = if refusal == 0 { paper::box_length(area) } else { 0 };
    for before in [[0, length + 1], [1, length], [length / 2, u64::MAX]][turn % 3] {
        let args = [numbers(area), vec![before]].concat();
        let refusal = paper::lowest(&[refusal, paper::given(before, length)]);
        let run = || {
            let mut tiles = made(area).into_iter();
            let given = tiles.by_ref().take(before as usize).count();
            let (least, most) = tiles.size_hint();
            assert_eq!((given as u64, most), (before, Some(least)));
            vec![least as u64]
        };
        if refusal == 0 && (length >= 1 << 32 || before > MOST) {
            list.rule("size_hint", &args, &[length]);
        } else {
            list.both("size_hint", &args, (refusal, 1), area.0, run, || vec![length]);
        }
    }
}

fn contains(list: &mut List) {
    let mut random = Random::new();
    for (i, area) in sample::boxes().into_iter().enumerate() {
        let (z, minx, maxx, miny, maxy) = area;
        let x = minx + random.below(u64::from(maxx - minx) + 1) as u32;
        let y = miny + random.below(u64::from(maxy - miny) + 1) as u32;
        // A tile inside, and in turn one at an end, one just outside and one elsewhere.
        let ends = [(minx, miny, z), (maxx, maxy, z), (minx, maxy, z), (maxx, miny, z)];
        let outside = [(minx.wrapping_sub(1), y, z), (maxx + 1, y, z), (x, miny.wrapping_sub(1), z), (x, maxy + 1, z)];
        let elsewhere = [random.tile(z), (x, y, z + 1), (x / 2, y / 2, z.saturating_sub(1)), random.tile(z)];
        for t in [(x, y, z), ends[i % 4], outside[i / 4 % 4], elsewhere[i % 4]] {
            contains_tile(list, area, t);
        }
    }
    for area in sample::no_boxes() {
        for t in [(0, 0, 0), (0, 0, area.0), (1, 0, 0), (0, 0, DEEPEST + 1)] {
            contains_tile(list, area, t);
        }
    }
}

fn contains_tile(list: &mut List, area: Zbox, t: Xyz) {
    let refusal = paper::lowest(&[paper::tile(t), paper::zbox(area)]);
    let run = || vec![made(area).contains_tile(&Tile::new_unchecked(t.0, t.1, t.2)).into()];
    let inside = || vec![words::contains(area, t).into()];
    list.both("contains_tile", &[numbers(area), xyz(t)].concat(), (refusal, 1), area.0.max(t.2), run, inside);
}

fn sums(list: &mut List) {
    let mut random = Random::new();
    let (boxes, no_boxes) = (sample::boxes(), sample::no_boxes());
    let short: Vec<Zbox> = boxes.iter().copied().filter(|&area| paper::box_length(area) < 1 << 32).collect();
    for count in (0..=4).flat_map(|count| [count; 12]).chain([5, 6, 7, 8, 8, 8, 9, 9, 10, 32]) {
        sum(list, &random.picks(&short, count));
        let mut areas = random.picks(&boxes, count);
        sum(list, &areas);
        areas.push(random.pick(&no_boxes));
        sum(list, &areas);
    }
    sum(list, &[WHOLE; MOST_BOXES]);
    sum(list, &[WHOLE; MOST_BOXES + 1]);
    sum(list, &[&[ROOT; MOST_BOXES][..], &[TOO_DEEP]].concat());
    sum(list, &[&[ROOT; MOST_BOXES][..], &[(0, 1, 0, 0, 0)]].concat());
    sum(list, &[(1, 1, 0, 0, 0), TOO_DEEP]);
}

fn sum(list: &mut List, areas: &[Zbox]) {
    let args = several(areas);
    let refusal = paper::zboxes(areas);
    let total = || vec![areas.iter().map(|&area| paper::box_length(area)).sum()];
    if refusal == 0 && areas.iter().any(|&area| paper::box_length(area) >= 1 << 32) {
        list.rule("boxes_length", &args, &total());
    } else {
        list.both("boxes_length", &args, (refusal, 1), deepest(areas), || vec![all(areas).length()], total);
    }
}

fn deepest(areas: &[Zbox]) -> u8 {
    areas.iter().map(|area| area.0).max().unwrap_or(0)
}

// The count of the boxes, then five numbers of each.
fn several(areas: &[Zbox]) -> Vec<u64> {
    [vec![areas.len() as u64], areas.iter().flat_map(|&area| numbers(area)).collect()].concat()
}

fn all(areas: &[Zbox]) -> TileZBoxes {
    TileZBoxes::from(areas.iter().map(|&area| made(area)).collect::<Vec<TileZBox>>())
}

// The cursor over several boxes: at every place of a few small ones and just past their end, with a wrong one among them, over as many
// as are taken and one more, and over boxes that no one walks through.
fn walks(list: &mut List) {
    let mut random = Random::new();
    let (boxes, no_boxes) = (sample::boxes(), sample::no_boxes());
    let small: Vec<Zbox> = boxes.iter().copied().filter(|&area| paper::box_length(area) <= 6).collect();
    for count in (0..=4).flat_map(|count| [count; 8]) {
        let mut areas = random.picks(&small, count);
        let total: u64 = areas.iter().map(|&area| paper::box_length(area)).sum();
        (0..=total + 1).for_each(|before| step(list, before, &areas));
        areas.insert(random.below(count as u64 + 1) as usize, random.pick(&no_boxes));
        [0, total, u64::MAX].into_iter().for_each(|before| step(list, before, &areas));
    }
    (0..=MOST_BOXES as u64 + 1).for_each(|before| step(list, before, &[ROOT; MOST_BOXES]));
    step(list, 0, &[ROOT; MOST_BOXES + 1]);
    step(list, MOST_BOXES as u64 + 2, &[ROOT; MOST_BOXES + 1]);
    step(list, 0, &[&[ROOT; MOST_BOXES][..], &[TOO_DEEP]].concat());
    step(list, 0, &[&[ROOT; MOST_BOXES][..], &[(0, 1, 0, 0, 0)]].concat());
    let (row, each, most) = (1 << DEEPEST, paper::box_length(WHOLE), MOST_BOXES as u64);
    for before in [0, row - 1, row, each - 1, each, each + row] {
        step(list, before, &[WHOLE; MOST_BOXES]);
    }
    for before in [(most - 1) * each - 1, (most - 1) * each, most * each - 1, most * each, most * each + 1] {
        step(list, before, &[WHOLE; MOST_BOXES]);
    }
    for count in [2, 3, 5, 7, MOST_BOXES].into_iter().flat_map(|count| [count; 6]) {
        let areas = random.picks(&boxes, count);
        let total: u64 = areas.iter().map(|&area| paper::box_length(area)).sum();
        let first = paper::box_length(areas[0]);
        [first - 1, first, random.below(total), total - 1].into_iter().for_each(|before| step(list, before, &areas));
    }
}

fn step(list: &mut List, before: u64, areas: &[Zbox]) {
    let args = [vec![before], several(areas)].concat();
    let refusal = paper::zboxes(areas);
    let total = if refusal == 0 { areas.iter().map(|&area| paper::box_length(area)).sum() } else { 0 };
    let refusal = paper::lowest(&[refusal, paper::given(before, total)]);
    let next = || words::boxes_next(areas, before);
    let run = || match all(areas).into_iter().nth(before as usize) {
        Some(t) => [vec![1], xyz(t), vec![before + 1]].concat(),
        None => vec![0, 0, 0, 0, before],
    };
    // The Rust writes all tiles down before the first is given.
    if refusal == 0 && total > MOST {
        list.rule("boxes_next", &args, &next());
    } else {
        list.both("boxes_next", &args, (refusal, 5), deepest(areas), run, next);
    }
}
