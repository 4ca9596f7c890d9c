use crate::deepest::{CORNERS, DEEPEST, DIGITS, LAST, RMIDS, SIDE, corner_keys, rmid};
use crate::ffi;
use crate::lists::{entries, keys};
use crate::quadkey::key;
use crate::tally::Tally;
use crate::tile::NO_TILES;

type Xyz = (u32, u32, u8);
/// A tile, the digits of the steps to it, and their count.
type Ancestor = (Xyz, [u8; DIGITS], u8);
type Around = unsafe extern "C" fn(u32, u32, u8, *mut u64, usize, &mut u64) -> u8;

pub fn run(tally: &mut Tally) {
    plain(tally);
    parents(tally);
    numbers(tally);
    descendants(tally);
    around(tally);
    around_corners(tally);
}

fn plain(tally: &mut Tally) {
    for zoom in [DEEPEST + 1, 255] {
        tally.refuses(
            "nori_minmax",
            |v: &mut (u32, u32)| ffi::nori_minmax(zoom, &mut v.0, &mut v.1),
            1,
        );
        tally.refuses("nori_flipy", |v| ffi::nori_flipy(0, zoom, v), 1);
        tally.refuses("nori_yflip", |v| ffi::nori_yflip(u32::MAX, zoom, v), 1);
    }
    tally.gives(
        "nori_minmax",
        |v: &mut (u32, u32)| ffi::nori_minmax(0, &mut v.0, &mut v.1),
        (0, 0),
    );
    tally.gives(
        "nori_minmax",
        |v: &mut (u32, u32)| ffi::nori_minmax(DEEPEST, &mut v.0, &mut v.1),
        (0, LAST),
    );
    let rows = [
        (5, 3, 2),
        (0, 3, 7),
        (7, 3, 0),
        (0, DEEPEST, LAST),
        (LAST, DEEPEST, 0),
    ];
    for (y, z, row) in rows {
        tally.gives("nori_flipy", |v| ffi::nori_flipy(y, z, v), row);
        tally.gives("nori_yflip", |v| ffi::nori_yflip(y, z, v), row);
    }
    for (y, z) in [(8, 3), (SIDE, DEEPEST)] {
        tally.refuses("nori_flipy", |v| ffi::nori_flipy(y, z, v), 2);
        tally.refuses("nori_yflip", |v| ffi::nori_yflip(y, z, v), 2);
    }
    tally.gives("nori_valid", |v| ffi::nori_valid(7, 7, 3, v), 1);
    for (x, y) in CORNERS {
        tally.gives("nori_valid", |v| ffi::nori_valid(x, y, DEEPEST, v), 1);
    }
    for (x, y, z, _) in NO_TILES {
        tally.gives("nori_valid", |v| ffi::nori_valid(x, y, z, v), 0);
    }
    let corners = [
        (0, 0, 1 << 31, 0, 0),
        (0, 1 << 20, 0, 0, 11),
        (7, 7, 7, 7, 28),
        (0, 0, 1, 1, 28),
    ];
    for (west, south, east, north, zoom) in corners {
        tally.gives(
            "nori_bbox2zoom",
            |v| ffi::nori_bbox2zoom(west, south, east, north, v),
            zoom,
        );
    }
}

fn parents(tally: &mut Tally) {
    let call = |x, y, z, n| {
        move |v: &mut Ancestor| {
            let ((tx, ty, tz), digits, count) = v;
            ffi::nori_parent(x, y, z, n, tx, ty, tz, digits, count)
        }
    };
    let tiles = [
        (3, 5, 3),
        (4, 1, 3),
        (1, 0, 1),
        (SIDE / 2, 3, DEEPEST),
        (0x2aaa_aaaa, 0x1999_9999, DEEPEST),
        (0x0f0f_0f0f, 0x1234_5678, DEEPEST - 1),
    ];
    let corners = CORNERS.map(|(x, y)| (x, y, DEEPEST));
    for (x, y, z) in tiles.into_iter().chain(corners) {
        for n in 0..z {
            tally.gives("nori_parent", call(x, y, z, n), ancestor(x, y, z, n));
        }
        for n in [z, z + 1, 255] {
            tally.refuses("nori_parent", call(x, y, z, n), 3);
        }
    }
    let at = |digits: &[u8]| std::array::from_fn(|i| digits.get(i).copied().unwrap_or(0));
    tally.gives("nori_parent", call(3, 5, 3, 0), ((1, 2, 2), at(b"3"), 1));
    tally.gives("nori_parent", call(3, 5, 3, 1), ((0, 1, 1), at(b"13"), 2));
    tally.gives("nori_parent", call(3, 5, 3, 2), ((0, 0, 0), at(b"213"), 3));
    tally.refuses("nori_parent", call(0, 0, 0, 0), 3);
    for (x, y, z, number) in NO_TILES {
        tally.refuses("nori_parent", call(x, y, z, 0), number);
        tally.refuses("nori_parent", call(x, y, z, 255), number);
    }
}

/// The digits are the last 1 + n of the tile's key.
fn ancestor(x: u32, y: u32, z: u8, n: u8) -> Ancestor {
    let steps = 1 + n;
    let mut digits = key(x, y, z)[usize::from(z - steps)..].to_vec();
    digits.resize(DIGITS, 0);
    let tile = (x >> steps, y >> steps, z - steps);
    (tile, digits.try_into().expect("no more digits"), steps)
}

fn numbers(tally: &mut Tally) {
    ids(tally);
    let offset =
        |rmid| move |v: &mut (u64, u8)| ffi::nori_int_2_offset_zoom(rmid, &mut v.0, &mut v.1);
    let tiles = [
        (3, 5, 3, 64),
        (0, 0, 0, 0),
        (LAST / 2, LAST / 2, DEEPEST - 1, rmid(0, 0, DEEPEST) - 1),
    ];
    let corners = CORNERS.map(|(x, y)| (x, y, DEEPEST, rmid(x, y, DEEPEST)));
    for (x, y, z, rmid) in tiles.into_iter().chain(corners) {
        let xyz = (x, y, z);
        tally.gives("nori_xyz2rmid", |v| ffi::nori_xyz2rmid(x, y, z, v), rmid);
        tally.gives("nori_rmid2xyz", from(ffi::nori_rmid2xyz, rmid), xyz);
        tally.gives("nori_entry", |v| ffi::nori_entry(x, y, z, v), rmid);
        tally.gives("nori_entry_tile", from(ffi::nori_entry_tile, rmid), xyz);
        let place = u64::from(x) + (u64::from(y) << z);
        tally.gives("nori_int_2_offset_zoom", offset(rmid), (place, z));
    }
    for (x, y, z, number) in NO_TILES {
        tally.refuses("nori_xyz2rmid", |v| ffi::nori_xyz2rmid(x, y, z, v), number);
        tally.refuses("nori_entry", |v| ffi::nori_entry(x, y, z, v), number);
    }
    for rmid in [RMIDS, u64::MAX] {
        tally.refuses("nori_rmid2xyz", from(ffi::nori_rmid2xyz, rmid), 7);
        tally.refuses("nori_entry_tile", from(ffi::nori_entry_tile, rmid), 7);
        tally.refuses("nori_int_2_offset_zoom", offset(rmid), 7);
    }
}

/// These numbers end before the deepest zoom.
fn ids(tally: &mut Tally) {
    let end = ffi::MAX_ID_ZOOM;
    let last = (1 << end) - 1;
    let id = |x, y, z| ((u64::from(y) << (z + 1)) + u64::from(x)) * 32 + u64::from(z);
    let corners = CORNERS.map(|(x, y)| (x.min(last), y.min(last)));
    let tiles = [(3, 5, 3, 2659), (0, 0, 0, 0)];
    let ends = corners.map(|(x, y)| (x, y, end, id(x, y, end)));
    for (x, y, z, id) in tiles.into_iter().chain(ends) {
        tally.gives("nori_to_id", |v| ffi::nori_to_id(x, y, z, v), id);
        tally.gives("nori_from_id", from(ffi::nori_from_id, id), (x, y, z));
    }
    for (x, y, z, number) in NO_TILES {
        let number = if z > end { 1 } else { number };
        tally.refuses("nori_to_id", |v| ffi::nori_to_id(x, y, z, v), number);
    }
    for (x, y) in CORNERS {
        tally.refuses("nori_to_id", |v| ffi::nori_to_id(x, y, DEEPEST, v), 1);
    }
    for (x, y) in corners {
        // The five low bits are the zoom: 31, and 30.
        let none = id(x, y, end) | 31;
        for id in [none, none - 1] {
            tally.refuses("nori_from_id", from(ffi::nori_from_id, id), 7);
        }
    }
    for (x, y) in [(last + 1, last), (0, last + 1)] {
        tally.refuses("nori_to_id", |v| ffi::nori_to_id(x, y, end, v), 2);
    }
    for id in [30, 31, 32, id(last, last, end) + 32, u64::MAX] {
        tally.refuses("nori_from_id", from(ffi::nori_from_id, id), 7);
    }
}

fn from(
    call: extern "C" fn(u64, &mut u32, &mut u32, &mut u8) -> u8,
    number: u64,
) -> impl Fn(&mut Xyz) -> u8 {
    move |v| call(number, &mut v.0, &mut v.1, &mut v.2)
}

fn descendants(tally: &mut Tally) {
    type ToZoom = unsafe extern "C" fn(u32, u32, u8, u8, *mut u64, usize, &mut u64) -> u8;
    let clockwise = ["0", "1", "3", "2"];
    let by_digit = ["0", "1", "2", "3"];
    let calls: [(_, ToZoom, _); 2] = [
        ("nori_children", ffi::nori_children, clockwise),
        ("nori_children_zorder", ffi::nori_children_zorder, by_digit),
    ];
    for (name, call, order) in calls {
        let children = |x, y, z, zoom| {
            move |out, places, count: &mut u64| unsafe { call(x, y, z, zoom, out, places, count) }
        };
        let grown = |of: &[String]| {
            of.iter()
                .flat_map(|key| order.map(|digit| key.clone() + digit))
                .collect()
        };
        let mut below = vec!["21".to_owned()];
        for zoom in 2..6 {
            let answer = keys(&below);
            tally.lists(name, children(1, 2, 2, zoom), &answer, answer.len());
            below = grown(&below);
        }
        tally.lists(name, children(1, 2, 2, 0), &keys(&["21"]), 1);
        tally.leaves(name, 0, children(8, 0, 3, DEEPEST + 1), 1);
        tally.leaves(name, 4, children(0, 0, 0, DEEPEST), 12);
        for ((x, y), key) in CORNERS.into_iter().zip(corner_keys()) {
            let four = keys(&order.map(|digit| key[..DIGITS - 1].to_owned() + digit));
            let from_above = children(x / 2, y / 2, DEEPEST - 1, DEEPEST);
            tally.lists(name, from_above, &four, 4);
            tally.lists(name, children(x, y, DEEPEST, DEEPEST), &keys(&[key]), 1);
            tally.leaves(name, 4, children(x, y, DEEPEST, DEEPEST + 1), 1);
        }
        for (x, y, z, number) in NO_TILES {
            tally.leaves(name, 4, children(x, y, z, DEEPEST), number);
        }
    }
    let name = "nori_children1_zorder";
    let children1 = |x, y, z| {
        move |out, places, count: &mut u64| unsafe {
            ffi::nori_children1_zorder(x, y, z, out, places, count)
        }
    };
    tally.lists(
        name,
        children1(1, 2, 2),
        &keys(&["210", "211", "212", "213"]),
        4,
    );
    for ((x, y), key) in CORNERS.into_iter().zip(corner_keys()) {
        let four = keys(&by_digit.map(|digit| key[..DIGITS - 1].to_owned() + digit));
        tally.lists(name, children1(x / 2, y / 2, DEEPEST - 1), &four, 4);
        tally.leaves(name, 4, children1(x, y, DEEPEST), 1);
    }
    for (x, y, z, number) in NO_TILES {
        let number = if z < DEEPEST { number } else { 1 };
        tally.leaves(name, 4, children1(x, y, z), number);
    }
}

fn at(call: Around, x: u32, y: u32, z: u8) -> impl Fn(*mut u64, usize, &mut u64) -> u8 {
    move |out, places, count| unsafe { call(x, y, z, out, places, count) }
}

fn list(z: u8, places: &[(u32, u32)]) -> Vec<u64> {
    entries(&places.iter().map(|&(x, y)| (x, y, z)).collect::<Vec<_>>())
}

fn around(tally: &mut Tally) {
    let (siblings, neighbors, wrap) = (
        ffi::nori_siblings,
        ffi::nori_neighbors,
        ffi::nori_neighbors_wrap_x,
    );
    tally.lists(
        "nori_siblings",
        at(siblings, 3, 5, 3),
        &list(3, &[(2, 5), (3, 4), (2, 4)]),
        3,
    );
    tally.lists(
        "nori_siblings",
        at(siblings, 2, 4, 3),
        &list(3, &[(3, 4), (2, 5), (3, 5)]),
        3,
    );
    tally.leaves("nori_siblings", 3, at(siblings, 0, 0, 0), 3);
    tally.leaves("nori_siblings", 0, at(siblings, 0, 0, 0), 3);
    tally.lists(
        "nori_neighbors",
        at(neighbors, 3, 0, 2),
        &list(2, &[(3, 1), (2, 0), (2, 1)]),
        3,
    );
    let middle = [
        (2, 1),
        (1, 2),
        (2, 2),
        (0, 1),
        (1, 0),
        (0, 0),
        (2, 0),
        (0, 2),
    ];
    tally.lists(
        "nori_neighbors",
        at(neighbors, 1, 1, 2),
        &list(2, &middle),
        8,
    );
    tally.lists(
        "nori_neighbors",
        at(neighbors, 1, 0, 1),
        &list(1, &[(0, 0), (1, 1), (0, 1)]),
        3,
    );
    tally.lists("nori_neighbors", at(neighbors, 0, 0, 0), &[], 0);
    let across = [(2, 0), (2, 1), (3, 1), (0, 0), (0, 1)];
    tally.lists(
        "nori_neighbors_wrap_x",
        at(wrap, 3, 0, 2),
        &list(2, &across),
        5,
    );
    tally.lists("nori_neighbors_wrap_x", at(wrap, 0, 0, 0), &[], 0);
    let calls: [(_, Around); 3] = [
        ("nori_siblings", siblings),
        ("nori_neighbors", neighbors),
        ("nori_neighbors_wrap_x", wrap),
    ];
    for (name, call) in calls {
        for (x, y, z, number) in NO_TILES {
            tally.leaves(name, 8, at(call, x, y, z), number);
            tally.leaves(name, 0, at(call, x, y, z), number);
        }
    }
}

fn around_corners(tally: &mut Tally) {
    // The Rust takes the first corner for one, the next two for edges and the last for the middle.
    let orders = [
        [(1, 0), (0, 1), (1, 1)],
        [(LAST, 1), (LAST - 1, 0), (LAST - 1, 1)],
        [(1, LAST), (0, LAST - 1), (1, LAST - 1)],
        [(LAST - 1, LAST), (LAST, LAST - 1), (LAST - 1, LAST - 1)],
    ];
    for ((x, y), order) in CORNERS.into_iter().zip(orders) {
        let family = [(x ^ 1, y), (x, y ^ 1), (x ^ 1, y ^ 1)];
        let (west, east, top) = (x.wrapping_sub(1) % SIDE, (x + 1) % SIDE, y.min(LAST - 1));
        let columns = [west, x, east].into_iter();
        let mut wrapped: Vec<_> = columns.flat_map(|x| [(x, top), (x, top + 1)]).collect();
        wrapped.retain(|&place| place != (x, y));
        let calls: [(_, Around, &[_]); 3] = [
            ("nori_siblings", ffi::nori_siblings, &family),
            ("nori_neighbors", ffi::nori_neighbors, &order),
            (
                "nori_neighbors_wrap_x",
                ffi::nori_neighbors_wrap_x,
                &wrapped,
            ),
        ];
        for (name, call, places) in calls {
            let answer = list(DEEPEST, places);
            tally.lists(name, at(call, x, y, DEEPEST), &answer, answer.len());
        }
    }
}
