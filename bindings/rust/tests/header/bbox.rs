use crate::ffi;
use crate::tally::Tally;

type Sides = (f64, f64, f64, f64);
type OfTwo = extern "C" fn(f64, f64, f64, f64, f64, f64, f64, f64, &mut u8) -> u8;

const PLAIN: Sides = (-10.0, -5.0, 10.0, 5.0);
const ACROSS: Sides = (170.0, -5.0, -170.0, 5.0);
const NO_NUMBERS: Sides = (f64::NAN, f64::NAN, f64::NAN, f64::NAN);

pub fn run(tally: &mut Tally) {
    for ((w, s, e, n), told) in [
        (PLAIN, 0),
        (ACROSS, 1),
        (NO_NUMBERS, 0),
        ((1.0, 0.0, 1.0, 0.0), 0),
    ] {
        let crosses = |v: &mut u8| ffi::nori_bbox_crosses_antimeridian(w, s, e, n, v);
        tally.gives("nori_bbox_crosses_antimeridian", crosses, told);
        tally.gives(
            "nori_bbox_is_antimeridian",
            |v| ffi::nori_bbox_is_antimeridian(w, s, e, n, v),
            told,
        );
    }
    places(tally);
    pairs(tally);
    parts(tally);
}

fn places(tally: &mut Tally) {
    let places = [
        (PLAIN, 0.0, 0.0, 1),
        (PLAIN, 10.0, 5.0, 1),
        (PLAIN, 11.0, 0.0, 0),
        (PLAIN, f64::NAN, 0.0, 0),
        (ACROSS, 175.0, 0.0, 1),
        (ACROSS, -175.0, 0.0, 1),
        (ACROSS, 0.0, 0.0, 0),
        (ACROSS, 175.0, 6.0, 0),
        (NO_NUMBERS, 0.0, 0.0, 0),
    ];
    for ((w, s, e, n), lng, lat, told) in places {
        let call = |v: &mut u8| ffi::nori_bbox_contains_lnglat(w, s, e, n, lng, lat, v);
        tally.gives("nori_bbox_contains_lnglat", call, told);
    }
}

fn pairs(tally: &mut Tally) {
    let inner = (0.0, 0.0, 10.0, 5.0);
    let outer = (-20.0, -5.0, 20.0, 5.0);
    let beside = (11.0, -5.0, 20.0, 5.0);
    let rows = [
        (PLAIN, PLAIN, [1, 1, 1]),
        (PLAIN, inner, [1, 0, 1]),
        (PLAIN, outer, [0, 1, 1]),
        (PLAIN, beside, [0, 0, 0]),
        (ACROSS, (171.0, 0.0, 172.0, 1.0), [1, 0, 0]),
        (ACROSS, ACROSS, [1, 1, 0]),
        (NO_NUMBERS, PLAIN, [0, 0, 0]),
        (PLAIN, NO_NUMBERS, [0, 0, 0]),
    ];
    let calls: [(_, OfTwo); 3] = [
        ("nori_bbox_contains_bbox", ffi::nori_bbox_contains_bbox),
        ("nori_bbox_is_within", ffi::nori_bbox_is_within),
        ("nori_bbox_intersects", ffi::nori_bbox_intersects),
    ];
    for (a, b, told) in rows {
        for ((name, call), told) in calls.into_iter().zip(told) {
            tally.gives(
                name,
                |v| call(a.0, a.1, a.2, a.3, b.0, b.1, b.2, b.3, v),
                told,
            );
        }
    }
}

fn parts(tally: &mut Tally) {
    let call = |(w, s, e, n): Sides| {
        move |(count, a, b): &mut (u8, Sides, Sides)| {
            ffi::nori_bbox_bboxes(
                w, s, e, n, count, &mut a.0, &mut a.1, &mut a.2, &mut a.3, &mut b.0, &mut b.1,
                &mut b.2, &mut b.3,
            )
        }
    };
    tally.gives(
        "nori_bbox_bboxes",
        call(PLAIN),
        (1, PLAIN, (0.0, 0.0, 0.0, 0.0)),
    );
    let (west, east) = ((170.0, -5.0, 180.0, 5.0), (-180.0, -5.0, -170.0, 5.0));
    tally.gives("nori_bbox_bboxes", call(ACROSS), (2, west, east));
}
