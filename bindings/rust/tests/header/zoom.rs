use crate::deepest::{DEEPEST, LAST};
use crate::ffi;
use crate::tally::{BEHIND, Tally};

type ToList = unsafe extern "C" fn(u32, *mut u8, usize, &mut u64) -> u8;
type ToNumber = unsafe extern "C" fn(*const u8, usize, &mut u32) -> u8;
type ToRuns = unsafe extern "C" fn(u32, *mut u8, usize, *mut u8, usize, &mut u64) -> u8;

pub fn run(tally: &mut Tally) {
    listed(tally);
    numbered(tally);
    for (name, call) in [
        ("nori_zoom_ranges", ffi::nori_zoom_ranges as ToRuns),
        ("nori_zset_zoom_ranges", ffi::nori_zset_zoom_ranges),
    ] {
        runs(tally, name, call);
    }
    single(tally);
    ranges(tally);
}

fn listed(tally: &mut Tally) {
    let calls: [(_, ToList, bool); 3] = [
        ("nori_zset2zvec", ffi::nori_zset2zvec, false),
        ("nori_zset_to_zooms", ffi::nori_zset_to_zooms, false),
        ("nori_zset2zvec_rev", ffi::nori_zset2zvec_rev, true),
    ];
    let all: Vec<u8> = (0..31).collect();
    for (name, call, turned) in calls {
        let of = |zset: u32| {
            move |out, places, count: &mut u64| unsafe { call(zset, out, places, count) }
        };
        let number = |zset: u32| {
            if turned {
                zset.reverse_bits() >> 1
            } else {
                zset
            }
        };
        tally.lists(name, of(number(33)), &[0, 5], 2);
        tally.lists(name, of(number(0)), &[], 0);
        tally.lists(name, of((1 << 31) - 1), &all, 31);
    }
    let reversed =
        |out, places, count: &mut u64| unsafe { ffi::nori_zset2zvec(3 << 30, out, places, count) };
    tally.lists("nori_zset2zvec", reversed, &[0], 1);
}

fn numbered(tally: &mut Tally) {
    let calls: [(_, ToNumber, u32, u32); 3] = [
        ("nori_zvec2zset", ffi::nori_zvec2zset, 33, (1 << 31) - 1),
        (
            "nori_zset_from_zooms",
            ffi::nori_zset_from_zooms,
            33,
            (1 << 31) - 1,
        ),
        (
            "nori_zvec2zset_rev",
            ffi::nori_zvec2zset_rev,
            1 << 31 | 1 << 26,
            !1,
        ),
    ];
    for (name, call, two, all) in calls {
        let of =
            |zooms: Vec<u8>| move |v: &mut u32| unsafe { call(zooms.as_ptr(), zooms.len(), v) };
        tally.gives(name, of(vec![5, 0, 5]), two);
        tally.gives(name, of((0..31).collect()), all);
        tally.gives(name, of(vec![]), 0);
        tally.gives(name, of([0, 5].repeat(32_768)), two);
        tally.refuses(name, of(vec![0, 31]), 1);
        tally.refuses(name, of(vec![255]), 1);
        tally.refuses(name, of(vec![0; 65_537]), 6);
        tally.refuses(name, of([vec![0; 65_536], vec![31]].concat()), 1);
    }
}

/// Lows and highs are lent in one memory, with places between them that no call may write to.
fn runs(tally: &mut Tally, name: &'static str, call: ToRuns) {
    let even: Vec<u8> = (0..=30).step_by(2).collect();
    let odd: Vec<u8> = (1..=29).step_by(2).collect();
    let sets: [(u32, &[u8], &[u8]); 8] = [
        (0b10_111, &[0, 4], &[2, 4]),
        (0, &[], &[]),
        (1, &[0], &[0]),
        (1 << 30, &[30], &[30]),
        (1 << 30 | 1, &[0, 30], &[0, 30]),
        ((1 << 31) - 1, &[0], &[30]),
        (0x5555_5555, &even, &even),
        (0x2aaa_aaaa, &odd, &odd),
    ];
    // Bit 31 changes nothing.
    let sets = sets
        .into_iter()
        .flat_map(|(zset, lows, highs)| [(zset, lows, highs), (zset | 1 << 31, lows, highs)]);
    for (zset, lows, highs) in sets {
        for (more_lows, more_highs) in [(0, 0), (4, 0), (0, 4)] {
            let (low_places, high_places) = (lows.len() + more_lows, highs.len() + more_highs);
            let start = low_places + BEHIND;
            let written = |before: &[u8]| {
                let mut memory = before.to_vec();
                memory[..lows.len()].copy_from_slice(lows);
                memory[start..start + highs.len()].copy_from_slice(highs);
                (0, lows.len() as u64, memory)
            };
            tally.call(
                name,
                start + high_places + BEHIND,
                lend(call, zset, low_places, high_places),
                written,
            );
        }
        for (low_places, high_places) in short_of(lows.len()) {
            if !lows.is_empty() {
                let places = low_places + high_places + 2 * BEHIND;
                let same = |before: &[u8]| (12, 0, before.to_vec());
                tally.call(
                    name,
                    places,
                    lend(call, zset, low_places, high_places),
                    same,
                );
            }
        }
    }
}

/// Places of which one list has too few: none, or one too few.
fn short_of(runs: usize) -> [(usize, usize); 4] {
    let fewer = runs.saturating_sub(1);
    [(runs, 0), (0, runs), (runs, fewer), (fewer, runs)]
}

fn lend(call: ToRuns, zset: u32, lows: usize, highs: usize) -> impl Fn(&mut [u8], &mut u64) -> u8 {
    move |memory, count| {
        let (first, second) = memory.split_at_mut(lows + BEHIND);
        unsafe {
            call(
                zset,
                first.as_mut_ptr(),
                lows,
                second.as_mut_ptr(),
                highs,
                count,
            )
        }
    }
}

fn single(tally: &mut Tally) {
    tally.gives("nori_zoom_max_xy", |v| ffi::nori_zoom_max_xy(0, v), 0);
    tally.gives(
        "nori_zoom_max_xy",
        |v| ffi::nori_zoom_max_xy(DEEPEST, v),
        LAST,
    );
    for zoom in [DEEPEST + 1, 255] {
        tally.refuses("nori_zoom_max_xy", |v| ffi::nori_zoom_max_xy(zoom, v), 1);
    }
    for zoom in 0..=30 {
        tally.gives(
            "nori_zset_from_zoom",
            |v| ffi::nori_zset_from_zoom(zoom, v),
            1 << zoom,
        );
        tally.gives(
            "nori_zoom_bit_rev",
            |v| ffi::nori_zoom_bit_rev(zoom, v),
            1 << (31 - zoom),
        );
        tally.gives(
            "nori_zset_and_zoom",
            |v| ffi::nori_zset_and_zoom(u32::MAX, zoom, v),
            1 << (31 - zoom),
        );
        tally.gives(
            "nori_zset_and_zoom",
            |v| ffi::nori_zset_and_zoom(0, zoom, v),
            0,
        );
    }
    for zoom in [31, 32, 255] {
        tally.refuses(
            "nori_zset_from_zoom",
            |v| ffi::nori_zset_from_zoom(zoom, v),
            1,
        );
        tally.refuses("nori_zoom_bit_rev", |v| ffi::nori_zoom_bit_rev(zoom, v), 1);
        tally.refuses(
            "nori_zset_and_zoom",
            |v| ffi::nori_zset_and_zoom(u32::MAX, zoom, v),
            1,
        );
    }
    tally.gives("nori_zset_all", |v| ffi::nori_zset_all(v), (1 << 31) - 1);
    tally.gives(
        "nori_zset_and",
        |v| ffi::nori_zset_and(0xff00_ff00, 0x0ff0_0ff0, v),
        0x0f00_0f00,
    );
    tally.gives(
        "nori_zset_and_bits",
        |v| ffi::nori_zset_and_bits(0xff00_ff00, 0x0ff0_0ff0, v),
        0x0f00_0f00,
    );
}

fn ranges(tally: &mut Tally) {
    for (min, max, zset) in [
        (0, 7, 255),
        (3, 3, 8),
        (0, 30, (1 << 31) - 1),
        (5, 4, 0),
        (255, 31, 0),
    ] {
        tally.gives("nori_zoom_set", |v| ffi::nori_zoom_set(min, max, v), zset);
    }
    for (min, max) in [(0, 31), (31, 31), (0, 255)] {
        tally.refuses("nori_zoom_set", |v| ffi::nori_zoom_set(min, max, v), 1);
    }
    for zoom in [0, 7, 30, 31, 255] {
        let from_max = |v: &mut (u8, u8)| ffi::nori_zoom_range_from_max(zoom, &mut v.0, &mut v.1);
        let from_min = |v: &mut (u8, u8)| ffi::nori_zoom_range_from_min(zoom, &mut v.0, &mut v.1);
        tally.gives("nori_zoom_range_from_max", from_max, (0, zoom));
        tally.gives("nori_zoom_range_from_min", from_min, (zoom, 30));
    }
    let default = |v: &mut (u8, u8)| ffi::nori_zoom_range_default(&mut v.0, &mut v.1);
    tally.gives("nori_zoom_range_default", default, (0, 30));
}
