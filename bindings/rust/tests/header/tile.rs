use crate::deepest::{CORNERS, DEEPEST, LAST, SIDE};
use crate::ffi;
use crate::tally::Tally;

type Step = extern "C" fn(u32, u32, u8, &mut u32, &mut u32, &mut u8) -> u8;

/// Columns, rows and zooms that name no tile, and the number of the refusal.
pub const NO_TILES: [(u32, u32, u8, u8); 14] = [
    (0, 0, DEEPEST + 1, 1),
    (LAST, 0, DEEPEST + 1, 1),
    (0, LAST, DEEPEST + 1, 1),
    (LAST, LAST, DEEPEST + 1, 1),
    (SIDE, SIDE, DEEPEST + 1, 1),
    (0, 0, 255, 1),
    (SIDE, 0, DEEPEST, 2),
    (SIDE, LAST, DEEPEST, 2),
    (0, SIDE, DEEPEST, 2),
    (LAST, SIDE, DEEPEST, 2),
    (SIDE, SIDE, DEEPEST, 2),
    (8, 0, 3, 2),
    (0, 8, 3, 2),
    (1, 0, 0, 2),
];

pub fn run(tally: &mut Tally) {
    let corners = CORNERS.map(|(x, y)| (x, y, DEEPEST));
    for (x, y, z) in [(3, 5, 3), (0, 0, 0)].into_iter().chain(corners) {
        tally.gives(
            "nori_try_new",
            |v: &mut (u32, u32, u8)| placed(ffi::nori_try_new, (x, y, z), v),
            (x, y, z),
        );
        tally.gives("nori_check", |_: &mut ()| ffi::nori_check(x, y, z), ());
    }
    for (x, y, z, number) in NO_TILES {
        tally.refuses(
            "nori_try_new",
            |v| placed(ffi::nori_try_new, (x, y, z), v),
            number,
        );
        tally.refuses("nori_check", |_: &mut ()| ffi::nori_check(x, y, z), number);
        tally.refuses(
            "nori_flip",
            |v| placed(ffi::nori_flip, (x, y, z), v),
            number,
        );
    }
    tally.gives(
        "nori_flip",
        |v| placed(ffi::nori_flip, (3, 5, 3), v),
        (3, 2, 3),
    );
    for (x, y, z) in corners {
        tally.gives(
            "nori_flip",
            |v| placed(ffi::nori_flip, (x, y, z), v),
            (x, LAST - y, z),
        );
    }
    orders(tally);
    steps(tally);
}

fn placed(call: Step, (x, y, z): (u32, u32, u8), v: &mut (u32, u32, u8)) -> u8 {
    call(x, y, z, &mut v.0, &mut v.1, &mut v.2)
}

fn orders(tally: &mut Tally) {
    let in_order = [
        (7, 7, 3),
        (0, 1, 4),
        (1, 0, 4),
        (1, 1, 4),
        (0, 0, DEEPEST),
        (0, LAST, DEEPEST),
        (LAST, 0, DEEPEST),
        (LAST, LAST, DEEPEST),
        (u32::MAX, 0, 255),
        (u32::MAX, u32::MAX, 255),
    ];
    for (i, a) in in_order.iter().enumerate() {
        for (j, b) in in_order.iter().enumerate() {
            let order = (i.cmp(&j) as i8 + 1) as u8;
            tally.gives(
                "nori_cmp",
                |v| ffi::nori_cmp(a.0, a.1, a.2, b.0, b.1, b.2, v),
                order,
            );
        }
    }
}

fn steps(tally: &mut Tally) {
    let steps: [(_, Step, i32, i32); 8] = [
        ("nori_up", ffi::nori_up, 1, 0),
        ("nori_down", ffi::nori_down, -1, 0),
        ("nori_left", ffi::nori_left, 0, -1),
        ("nori_right", ffi::nori_right, 0, 1),
        ("nori_up_left", ffi::nori_up_left, 1, -1),
        ("nori_up_right", ffi::nori_up_right, 1, 1),
        ("nori_down_left", ffi::nori_down_left, -1, -1),
        ("nori_down_right", ffi::nori_down_right, -1, 1),
    ];
    for (name, step, dx, dy) in steps {
        for (x, y, z, number) in NO_TILES {
            tally.refuses(name, |v| placed(step, (x, y, z), v), number);
        }
        let all = (0..8).flat_map(|x| (0..8).map(move |y| (x, y, 3)));
        for (x, y, z) in all.chain(CORNERS.map(|(x, y)| (x, y, DEEPEST))) {
            let to = |n: u32, d| n.checked_add_signed(d).filter(|n| n >> z == 0);
            let call = |v: &mut (u32, u32, u8)| placed(step, (x, y, z), v);
            match to(x, dx).zip(to(y, dy)) {
                Some((x, y)) => tally.gives(name, call, (x, y, z)),
                None => tally.refuses(name, call, 2),
            }
        }
    }
}
