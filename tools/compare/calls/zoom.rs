//! Zoom sets and lists.
use utiles_core::zoom::{self as rust, ZoomOrZooms, ZoomRange, ZoomSet};

use crate::ffi::*;
use crate::inputs;
use crate::memory::{Lent, junk, lend, value, written};
use crate::paper::DEEPEST_IN_LIST;
use crate::sample::Random;
use crate::tally::Tally;

/// The zooms of a list or set, and the most runs that they make.
const ZOOMS: usize = DEEPEST_IN_LIST as usize + 1;
const RUNS: usize = ZOOMS.div_ceil(2);

pub fn compare(tally: &mut Tally, random: &mut Random) {
    let z = inputs::zoom(random);
    tally.call("zoom_max_xy", z, value(u32::MAX, |max| nori_zoom_max_xy(z, max)), || (0, rust::zoom_max_xy(z)));
    of_set(tally, random);
    of_list(tally, random);
    common(tally, random);
}

fn of_set(tally: &mut Tally, random: &mut Random) {
    let set = inputs::word(random);
    let lent = junk(random, ZOOMS, |n| n as u8);
    let ours = lend(&lent, |out, places, count| unsafe { nori_zset2zvec(set, out, places, count) });
    tally.call("zset2zvec", set, ours, || written(&lent, &rust::zset2zvec(set)));
    let ours = lend(&lent, |out, places, count| unsafe { nori_zset2zvec_rev(set, out, places, count) });
    tally.call("zset2zvec_rev", set, ours, || written(&lent, &rust::zset2zvec_rev(set)));
    of_runs(tally, random, set & !(1 << 30 | 1));
}

// The runs of a set that holds neither zoom 0 nor zoom 30: those the Rust leaves out.
fn of_runs(tally: &mut Tally, random: &mut Random, set: u32) {
    let lows = junk(random, RUNS, |n| n as u8);
    let highs = junk(random, RUNS, |n| n as u8);
    tally.call("zoom_ranges", set, ranges(set, &lows, &highs), || {
        let ranges = ZoomSet::new(set).zoom_ranges();
        let all = |end: fn(&ZoomRange) -> u8| ranges.iter().map(end).collect::<Vec<u8>>();
        (written(&lows, &all(|range| range.min)), written(&highs, &all(|range| range.max)))
    });
}

fn ranges(set: u32, lows: &[u8], highs: &[u8]) -> (Lent<u8>, Lent<u8>) {
    let (mut number, mut both) = (0, 0);
    let mut above = Vec::new();
    let below = lend(lows, |lows, low_places, count| {
        (number, both, above) = lend(highs, |highs, high_places, both| unsafe {
            let number = nori_zoom_ranges(set, lows, low_places, highs, high_places, count);
            *both = *count;
            number
        });
        number
    });
    (below, (number, both, above))
}

fn of_list(tally: &mut Tally, random: &mut Random) {
    let zooms: Vec<u8> = (0..random.below(40)).map(|_| random.below(ZOOMS as u64) as u8).collect();
    let ours = value(u32::MAX, |zset| unsafe { nori_zvec2zset(zooms.as_ptr(), zooms.len(), zset) });
    tally.call("zvec2zset", &zooms, ours, || (0, rust::zvec2zset(&zooms)));
    let ours = value(u32::MAX, |zset| unsafe { nori_zvec2zset_rev(zooms.as_ptr(), zooms.len(), zset) });
    tally.call("zvec2zset_rev", &zooms, ours, || (0, rust::zvec2zset_rev(&zooms)));
}

fn common(tally: &mut Tally, random: &mut Random) {
    let (a, b) = (inputs::word(random), inputs::word(random));
    let ours = value(u32::MAX, |zset| nori_zset_and(a, b, zset));
    tally.call("and of two sets", (a, b), ours, || (0, number(ZoomSet::new(a) & ZoomSet::new(b))));
    let zoom = random.below(ZOOMS as u64) as u8;
    let ours = value(u32::MAX, |zset| nori_zset_and_zoom(a, zoom, zset));
    tally.call("and of a set and a zoom", (a, zoom), ours, || (0, number(ZoomSet::new(a) & zoom)));
    let ours = value(u32::MAX, |bit| nori_zoom_bit_rev(zoom, bit));
    tally.call("the number of a zoom", zoom, ours, || (0, ZoomOrZooms::Zoom(zoom).into()));
    let ours = value(u32::MAX, |zset| nori_zset_from_zoom(zoom, zset));
    tally.call("a set from a zoom", zoom, ours, || (0, number(ZoomSet::from(zoom))));
    let max = random.below(ZOOMS as u64) as u8;
    let ours = value(u32::MAX, |zset| nori_zoom_set(zoom, max, zset));
    tally.call("a set from a range", (zoom, max), ours, || (0, number(ZoomSet::from(ZoomRange::new(zoom, max)))));
}

// A set shows its number only in its debug text.
fn number(set: ZoomSet) -> u32 {
    let text = format!("{set:?}");
    text.trim_start_matches("ZoomSet(").trim_end_matches(')').parse().expect("a number")
}
