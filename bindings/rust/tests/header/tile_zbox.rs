use crate::deepest::{CORNERS, DEEPEST, LAST, SIDE, TILES};
use crate::ffi;
use crate::lists::{NO_TILE, entries};
use crate::tally::Tally;
use crate::tile::NO_TILES;

type Box = (u8, u32, u32, u32, u32);
type ToBox =
    extern "C" fn(u8, u32, u32, u32, u32, &mut u8, &mut u32, &mut u32, &mut u32, &mut u32) -> u8;
type ToPair = extern "C" fn(u8, u32, u32, u32, u32, &mut u32, &mut u32) -> u8;

/// Numbers that make no box, and the number of the refusal.
const NO_BOXES: [(Box, u8); 9] = [
    ((DEEPEST + 1, 0, 0, 0, 0), 1),
    ((DEEPEST + 1, 0, LAST, 0, LAST), 1),
    ((255, 5, 0, 5, 0), 1),
    ((DEEPEST, 0, SIDE, 0, LAST), 10),
    ((DEEPEST, 0, LAST, 0, SIDE), 10),
    ((3, 4, 3, 0, 0), 10),
    ((3, 0, 0, 4, 3), 10),
    ((3, 0, 8, 0, 0), 10),
    ((3, 0, 0, 0, 8), 10),
];

const AREA: Box = (3, 1, 3, 5, 6);

/// All of the deepest zoom.
const WHOLE: Box = (DEEPEST, 0, LAST, 0, LAST);

/// As many boxes as may be summed.
const MOST: usize = ffi::MAX_BOXES;

/// The box of one tile of the deepest zoom.
fn only((x, y): (u32, u32)) -> Box {
    (DEEPEST, x, x, y, y)
}

pub fn run(tally: &mut Tally) {
    made(tally);
    measured(tally);
    changed(tally);
    held(tally);
    walked(tally);
    several(tally);
}

fn made(tally: &mut Tally) {
    let new = |(zoom, a, b, c, d): Box| {
        move |v: &mut Box| {
            ffi::nori_zbox_new(
                a, b, c, d, zoom, &mut v.0, &mut v.1, &mut v.2, &mut v.3, &mut v.4,
            )
        }
    };
    let check = |(zoom, a, b, c, d): Box| move |_: &mut ()| ffi::nori_zbox_check(zoom, a, b, c, d);
    let from_tile = |x, y, z| {
        move |v: &mut Box| {
            ffi::nori_zbox_from_tile(x, y, z, &mut v.0, &mut v.1, &mut v.2, &mut v.3, &mut v.4)
        }
    };
    let boxes = [AREA, (0, 0, 0, 0, 0), WHOLE];
    for area in boxes.into_iter().chain(CORNERS.map(only)) {
        tally.gives("nori_zbox_new", new(area), area);
        tally.gives("nori_zbox_check", check(area), ());
    }
    for (area, number) in NO_BOXES {
        tally.refuses("nori_zbox_new", new(area), number);
        tally.refuses("nori_zbox_check", check(area), number);
    }
    tally.gives("nori_zbox_from_tile", from_tile(3, 5, 3), (3, 3, 3, 5, 5));
    for (x, y) in CORNERS {
        let area = only((x, y));
        tally.gives("nori_zbox_from_tile", from_tile(x, y, DEEPEST), area);
    }
    for (x, y, z, number) in NO_TILES {
        tally.refuses("nori_zbox_from_tile", from_tile(x, y, z), number);
    }
    made_of_lists(tally);
}

fn made_of_lists(tally: &mut Tally) {
    let call = |list: Vec<u64>| {
        move |v: &mut Box| unsafe {
            let (list, count) = (list.as_ptr(), list.len());
            ffi::nori_zbox_from_tiles(
                list, count, &mut v.0, &mut v.1, &mut v.2, &mut v.3, &mut v.4,
            )
        }
    };
    let name = "nori_zbox_from_tiles";
    tally.gives(
        name,
        call(entries(&[(3, 5, 3), (1, 6, 3), (2, 5, 3)])),
        AREA,
    );
    let corners = CORNERS.map(|(x, y)| (x, y, DEEPEST));
    tally.gives(name, call(entries(&corners)), WHOLE);
    for (corner, at) in corners.into_iter().zip(CORNERS) {
        tally.gives(name, call(entries(&[corner])), only(at));
    }
    tally.gives(
        name,
        call(entries(&vec![(0, 0, 0); 65_536])),
        (0, 0, 0, 0, 0),
    );
    tally.refuses(name, call(vec![NO_TILE; 65_537]), 6);
    tally.refuses(name, call(vec![NO_TILE]), 7);
    tally.refuses(name, call(vec![]), 8);
    tally.refuses(name, call(entries(&[(3, 5, 3), (0, 0, 0)])), 9);
}

fn measured(tally: &mut Tally) {
    type ToNumber<T> = extern "C" fn(u8, u32, u32, u32, u32, &mut T) -> u8;
    let sides: [(_, ToNumber<u32>, u32); 4] = [
        ("nori_zbox_dx", ffi::nori_zbox_dx, 2),
        ("nori_zbox_dy", ffi::nori_zbox_dy, 1),
        ("nori_zbox_width", ffi::nori_zbox_width, 2),
        ("nori_zbox_height", ffi::nori_zbox_height, 1),
    ];
    for (name, call, side) in sides {
        let of = |(zoom, a, b, c, d): Box| move |v: &mut u32| call(zoom, a, b, c, d, v);
        tally.gives(name, of(AREA), side);
        tally.gives(name, of(WHOLE), LAST);
        tally.gives(name, of(only((LAST, LAST))), 0);
        for (area, number) in NO_BOXES {
            tally.refuses(name, of(area), number);
        }
    }
    let lengths: [(_, ToNumber<u64>); 2] = [
        ("nori_zbox_length", ffi::nori_zbox_length),
        ("nori_zbox_size", ffi::nori_zbox_size),
    ];
    for (name, call) in lengths {
        let of = |(zoom, a, b, c, d): Box| move |v: &mut u64| call(zoom, a, b, c, d, v);
        tally.gives(name, of(AREA), 6);
        tally.gives(name, of(WHOLE), TILES);
        tally.gives(name, of(only((LAST, LAST))), 1);
        for (area, number) in NO_BOXES {
            tally.refuses(name, of(area), number);
        }
    }
    let pairs: [(_, ToPair, _, _); 2] = [
        ("nori_zbox_dxdy", ffi::nori_zbox_dxdy, (2, 1), LAST),
        (
            "nori_zbox_dimensions",
            ffi::nori_zbox_dimensions,
            (3, 2),
            SIDE,
        ),
    ];
    for (name, call, pair, whole) in pairs {
        let of = |(zoom, a, b, c, d): Box| {
            move |v: &mut (u32, u32)| call(zoom, a, b, c, d, &mut v.0, &mut v.1)
        };
        tally.gives(name, of(AREA), pair);
        tally.gives(name, of(WHOLE), (whole, whole));
        for (area, number) in NO_BOXES {
            tally.refuses(name, of(area), number);
        }
    }
}

fn changed(tally: &mut Tally) {
    let by = |call: ToBox, (zoom, a, b, c, d): Box| {
        move |v: &mut Box| {
            call(
                zoom, a, b, c, d, &mut v.0, &mut v.1, &mut v.2, &mut v.3, &mut v.4,
            )
        }
    };
    let deeper = |(zoom, a, b, c, d): Box, depth| {
        move |v: &mut Box| {
            ffi::nori_zbox_zoom_depth(
                zoom, a, b, c, d, depth, &mut v.0, &mut v.1, &mut v.2, &mut v.3, &mut v.4,
            )
        }
    };
    tally.gives(
        "nori_zbox_flipy",
        by(ffi::nori_zbox_flipy, AREA),
        (3, 1, 3, 1, 2),
    );
    tally.gives(
        "nori_zbox_zoom_in",
        by(ffi::nori_zbox_zoom_in, AREA),
        (4, 2, 7, 10, 13),
    );
    tally.gives("nori_zbox_zoom_depth", deeper(AREA, 0), AREA);
    tally.gives("nori_zbox_zoom_depth", deeper(AREA, 2), (5, 4, 15, 20, 27));
    for (area, number) in NO_BOXES {
        tally.refuses("nori_zbox_flipy", by(ffi::nori_zbox_flipy, area), number);
        let number = if area.0 < DEEPEST { number } else { 1 };
        tally.refuses(
            "nori_zbox_zoom_in",
            by(ffi::nori_zbox_zoom_in, area),
            number,
        );
        tally.refuses("nori_zbox_zoom_depth", deeper(area, 1), number);
        tally.refuses("nori_zbox_zoom_depth", deeper(area, 255), 1);
    }
    let zoom_in = |area| by(ffi::nori_zbox_zoom_in, area);
    let (half, root) = (LAST / 2, (0, 0, 0, 0, 0));
    let above = (DEEPEST - 1, 0, half, 0, half);
    tally.gives("nori_zbox_zoom_in", zoom_in(above), WHOLE);
    tally.gives("nori_zbox_zoom_depth", deeper(above, 1), WHOLE);
    tally.gives("nori_zbox_zoom_depth", deeper(root, DEEPEST), WHOLE);
    tally.refuses("nori_zbox_zoom_depth", deeper(root, DEEPEST + 1), 1);
    tally.refuses("nori_zbox_zoom_depth", deeper(AREA, DEEPEST - 2), 1);
    for (x, y) in CORNERS {
        let area = only((x, y));
        let flipped = only((x, LAST - y));
        tally.gives("nori_zbox_flipy", by(ffi::nori_zbox_flipy, area), flipped);
        tally.gives("nori_zbox_zoom_depth", deeper(area, 0), area);
        tally.refuses("nori_zbox_zoom_in", zoom_in(area), 1);
        tally.refuses("nori_zbox_zoom_depth", deeper(area, 1), 1);
    }
}

fn held(tally: &mut Tally) {
    let call = |(zoom, a, b, c, d): Box, (x, y, z)| {
        move |told: &mut u8| ffi::nori_zbox_contains_tile(zoom, a, b, c, d, x, y, z, told)
    };
    let name = "nori_zbox_contains_tile";
    for (tile, told) in [
        ((1, 5, 3), 1),
        ((3, 6, 3), 1),
        ((0, 5, 3), 0),
        ((1, 7, 3), 0),
        ((1, 5, 4), 0),
    ] {
        tally.gives(name, call(AREA, tile), told);
    }
    for (x, y) in CORNERS {
        let tile = (x, y, DEEPEST);
        tally.gives(name, call(WHOLE, tile), 1);
        for other in CORNERS {
            let told = u8::from(other == (x, y));
            tally.gives(name, call(only(other), tile), told);
        }
    }
    for (area, number) in NO_BOXES {
        tally.refuses(name, call(area, (0, 0, 0)), number);
        tally.refuses(name, call(area, (8, 8, 3)), number.min(2));
    }
    for (x, y, z, number) in NO_TILES {
        tally.refuses(name, call(AREA, (x, y, z)), number);
    }
}

fn walked(tally: &mut Tally) {
    let next = |(zoom, a, b, c, d): Box, before| {
        move |v: &mut (u8, u32, u32, u8, u64)| {
            ffi::nori_zbox_next(
                zoom, a, b, c, d, before, &mut v.0, &mut v.1, &mut v.2, &mut v.3, &mut v.4,
            )
        }
    };
    let tiles = [(1, 5), (2, 5), (3, 5), (1, 6), (2, 6), (3, 6)];
    for (i, (x, y)) in (0..).zip(tiles) {
        tally.gives("nori_zbox_next", next(AREA, i), (1, x, y, 3, i + 1));
    }
    tally.gives("nori_zbox_next", next(AREA, 6), (0, 0, 0, 0, 6));
    for (x, y) in CORNERS {
        let before = u64::from(x) + u64::from(y) * u64::from(SIDE);
        let given = (1, x, y, DEEPEST, before + 1);
        tally.gives("nori_zbox_next", next(WHOLE, before), given);
    }
    tally.gives("nori_zbox_next", next(WHOLE, TILES), (0, 0, 0, 0, TILES));
    tally.refuses("nori_zbox_next", next(WHOLE, TILES + 1), 10);
    tally.refuses("nori_zbox_next", next(AREA, 7), 10);
    tally.refuses("nori_zbox_next", next(AREA, u64::MAX), 10);
    for (area, number) in NO_BOXES {
        tally.refuses("nori_zbox_next", next(area, 0), number);
    }
    hinted(tally);
}

fn hinted(tally: &mut Tally) {
    let hint = |(zoom, a, b, c, d): Box, before| {
        move |length: &mut u64| ffi::nori_zbox_size_hint(zoom, a, b, c, d, before, length)
    };
    for before in [0, 1, 6] {
        tally.gives("nori_zbox_size_hint", hint(AREA, before), 6);
    }
    tally.gives("nori_zbox_size_hint", hint(WHOLE, TILES), TILES);
    tally.refuses("nori_zbox_size_hint", hint(WHOLE, TILES + 1), 10);
    tally.refuses("nori_zbox_size_hint", hint(AREA, 7), 10);
    for (area, number) in NO_BOXES {
        tally.refuses("nori_zbox_size_hint", hint(area, 0), number);
    }
}

fn several(tally: &mut Tally) {
    let numbers = |(zoom, a, b, c, d): Box| [u32::from(zoom), a, b, c, d];
    let boxes = |boxes: &[Box]| {
        boxes
            .iter()
            .copied()
            .flat_map(numbers)
            .collect::<Vec<u32>>()
    };
    let two = boxes(&[AREA, (0, 0, 0, 0, 0)]);
    tally.gives("nori_zboxes_length", length(two.clone()), 7);
    tally.gives("nori_zboxes_length", length(vec![]), 0);
    tally.gives("nori_zboxes_length", length(boxes(&[AREA; MOST])), 48);
    tally.lists(
        "nori_zboxes_flipy",
        flip(two.clone()),
        &boxes(&[(3, 1, 3, 1, 2), (0, 0, 0, 0, 0)]),
        10,
    );
    tally.lists("nori_zboxes_flipy", flip(vec![]), &[], 0);
    tally.gives("nori_zboxes_next", next(two.clone(), 0), (1, 1, 5, 3, 1));
    tally.gives("nori_zboxes_next", next(two.clone(), 5), (1, 3, 6, 3, 6));
    tally.gives("nori_zboxes_next", next(two.clone(), 6), (1, 0, 0, 0, 7));
    tally.gives("nori_zboxes_next", next(two.clone(), 7), (0, 0, 0, 0, 7));
    tally.refuses("nori_zboxes_next", next(two.clone(), 8), 10);
    tally.gives("nori_zboxes_next", next(vec![], 0), (0, 0, 0, 0, 0));
    tally.refuses("nori_zboxes_next", next(vec![], 1), 10);
    let (most, sum) = (boxes(&[WHOLE; MOST]), 1 << 63);
    tally.gives("nori_zboxes_length", length(most.clone()), sum);
    tally.lists("nori_zboxes_flipy", flip(most.clone()), &most, most.len());
    let last = (1, LAST, LAST, DEEPEST, sum);
    tally.gives("nori_zboxes_next", next(most.clone(), sum - 1), last);
    tally.gives(
        "nori_zboxes_next",
        next(most.clone(), sum),
        (0, 0, 0, 0, sum),
    );
    tally.refuses("nori_zboxes_next", next(most, sum + 1), 10);
    let mut refused = vec![
        (boxes(&[AREA; MOST + 1]), 6),
        (boxes(&[WHOLE; MOST + 1]), 6),
        (vec![256, 0, 0, 0, 0], 1),
        (two[..9].to_vec(), 10),
    ];
    for (area, number) in NO_BOXES {
        refused.push((boxes(&[AREA, area]), number));
        refused.push((
            boxes(&[[AREA; MOST].as_slice(), &[area]].concat()),
            number.min(6),
        ));
    }
    for (boxes, number) in refused {
        tally.refuses("nori_zboxes_length", length(boxes.clone()), number);
        for before in [0, u64::MAX] {
            tally.refuses("nori_zboxes_next", next(boxes.clone(), before), number);
        }
        tally.leaves(
            "nori_zboxes_flipy",
            boxes.len(),
            flip(boxes.clone()),
            number,
        );
        tally.leaves("nori_zboxes_flipy", 0, flip(boxes), number);
    }
}

fn length(boxes: Vec<u32>) -> impl Fn(&mut u64) -> u8 {
    move |length| unsafe { ffi::nori_zboxes_length(boxes.as_ptr(), boxes.len(), length) }
}

fn next(boxes: Vec<u32>, before: u64) -> impl Fn(&mut (u8, u32, u32, u8, u64)) -> u8 {
    move |v| unsafe {
        let (boxes, count) = (boxes.as_ptr(), boxes.len());
        ffi::nori_zboxes_next(
            boxes, count, before, &mut v.0, &mut v.1, &mut v.2, &mut v.3, &mut v.4,
        )
    }
}

fn flip(boxes: Vec<u32>) -> impl Fn(*mut u32, usize, &mut u64) -> u8 {
    move |out, places, count| unsafe {
        ffi::nori_zboxes_flipy(boxes.as_ptr(), boxes.len(), out, places, count)
    }
}
