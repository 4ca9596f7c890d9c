//! Zoom sets, and zoom lists to 30.
use utiles_core::zoom::{self as rust, ZoomSet};

use crate::paper::{self, DEEPEST_IN_LIST};
use crate::record::{List, bytes, counted};
use crate::sample::Random;
use crate::words;

pub fn write(list: &mut List) {
    for z in (0..=33).chain([255]) {
        let run = || vec![rust::zoom_max_xy(z).into()];
        list.both("zoom_max_xy", &[z.into()], (paper::zoom(z), 1), z, run, || vec![words::last(z)]);
    }
    for set in sets() {
        let args = [set.into()];
        list.call("zset2zvec", &args, 0, 1, || bytes(&rust::zset2zvec(set)));
        list.call("zset2zvec_rev", &args, 0, 1, || bytes(&rust::zset2zvec_rev(set)));
        runs(list, set);
    }
    for zooms in lists() {
        list.call("zvec2zset", &bytes(&zooms), paper::zooms(&zooms), 1, || vec![rust::zvec2zset(&zooms).into()]);
        list.call("zvec2zset_rev", &bytes(&zooms), paper::zooms(&zooms), 1, || {
            vec![rust::zvec2zset_rev(&zooms).into()]
        });
    }
    list.call("all", &[], 0, 1, || vec![number(ZoomSet::all())]);
    common(list);
}

// The Rust leaves out the zooms 0 and 30: it is run for the sets that hold neither, where document 02 must say the same.
fn runs(list: &mut List, set: u32) {
    let plain = pairs(words::runs(set));
    if set & (1 << 30 | 1) != 0 {
        return list.claim("zoom_ranges", &[set.into()], &plain);
    }
    let rust = pairs(ZoomSet::new(set).zoom_ranges().iter().map(|range| (range.min, range.max)).collect());
    if rust != plain {
        list.surprises.push(format!("the Rust's runs of {set} are not document 02's"));
    }
    list.call("zoom_ranges", &[set.into()], 0, 1, || rust);
}

// The count, the lowest zooms, then the highest ones.
fn pairs(runs: Vec<(u8, u8)>) -> Vec<u64> {
    let (lows, highs): (Vec<u64>, Vec<u64>) = runs.iter().map(|&(low, high)| (u64::from(low), u64::from(high))).unzip();
    [counted(&lows), highs].concat()
}

// A set shows its number only in its debug text.
fn number(set: ZoomSet) -> u64 {
    let text = format!("{set:?}");
    text.trim_start_matches("ZoomSet(").trim_end_matches(')').parse().expect("a number")
}

// No bit, all bits, every second one, one bit, two bits; random sets, some of them thin, with and without bit 31.
fn sets() -> Vec<u32> {
    let mut random = Random::new();
    let mut sets = vec![0, u32::MAX, u32::MAX >> 1];
    for set in [0x5555_5555, 0x2aaa_aaaa, 1 << 30 | 1] {
        sets.extend([set, set | 1 << 31]);
    }
    for high in 0..32 {
        sets.extend((0..=high).map(|low| 1 << high | 1 << low));
    }
    for i in 0..150 {
        let set = if i % 3 == 0 { random.word() & random.word() } else { random.word() };
        sets.extend([set | 1 << 31, set & !(1 << 31)]);
    }
    sets
}

// Every zoom by itself, pairs, repeats, and random lists in any order; then a zoom past 30 in each place.
fn lists() -> Vec<Vec<u8>> {
    let mut random = Random::new();
    let mut lists = vec![vec![], (0..=DEEPEST_IN_LIST).collect(), (0..=DEEPEST_IN_LIST).rev().collect(), vec![30; 40]];
    for z in 0..=DEEPEST_IN_LIST {
        lists.extend([vec![z], vec![z, z], vec![z, 0], vec![DEEPEST_IN_LIST, z]]);
    }
    for _ in 0..300 {
        let length = random.below(24);
        lists.push((0..length).map(|_| random.below(31) as u8).collect());
    }
    for bad in [31, 32, 33, 63, 64, 128, 255] {
        lists.extend([vec![bad], vec![bad, 0], vec![0, bad], vec![30, bad, 30], (0..=bad).collect()]);
    }
    lists
}

fn common(list: &mut List) {
    let mut random = Random::new();
    let sets = sets();
    for _ in 0..300 {
        let (a, b) = (random.pick(&sets), random.pick(&sets));
        let (sparse, dense) = (random.word(), random.word() | random.word());
        for (a, b) in [(a, b), (sparse, dense)] {
            list.call("and", &[a.into(), b.into()], 0, 1, || vec![number(ZoomSet::new(a) & ZoomSet::new(b))]);
        }
    }
    for zoom in (0..=33).chain([255]) {
        for set in
            [0, u32::MAX, 1 << (zoom % 32), 1 << (31 - zoom % 32), random.word(), random.word(), random.pick(&sets)]
        {
            let answer = || vec![number(ZoomSet::new(set) & zoom)];
            list.call("and_zoom", &[set.into(), zoom.into()], paper::zooms(&[zoom]), 1, answer);
        }
    }
}
