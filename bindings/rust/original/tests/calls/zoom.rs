//! Zooms, sets of them and ranges.
use noripliers::zoom as ours;
use utiles_core::zoom as rust;

use super::COMPARED;
use super::random::Random;

pub fn compare(random: &mut Random) {
    let (a, b) = (set(random), set(random));
    assert_eq!(ours::zset2zvec(a), rust::zset2zvec(a));
    assert_eq!(ours::zset2zvec_rev(a), rust::zset2zvec_rev(a));
    let (zooms, rust_zooms) = (ours::ZoomSet::new(a), rust::ZoomSet::new(a));
    assert_eq!(Vec::from(zooms), Vec::from(rust_zooms));
    runs(a & !(1 << 30 | 1));
    let and = (zooms & ours::ZoomSet::new(b), zooms & b, b & zooms);
    let rust_and = (
        rust_zooms & rust::ZoomSet::new(b),
        rust_zooms & b,
        b & rust_zooms,
    );
    let all = [and.0, and.1, and.2].map(|set| set.to_zooms());
    assert_eq!(
        all,
        [rust_and.0, rust_and.1, rust_and.2].map(|set| set.to_zooms())
    );
    lists(random, a);
    let (min, max) = (random.below(31) as u8, random.below(31) as u8);
    let (range, rust_range) = (
        ours::ZoomRange::new(min, max),
        rust::ZoomRange::new(min, max),
    );
    assert_eq!(
        range.into_iter().collect::<Vec<_>>(),
        rust_range.clone().into_iter().collect::<Vec<_>>()
    );
    assert_eq!(
        ours::ZoomSet::try_from(range).unwrap().to_zooms(),
        rust::ZoomSet::from(rust_range).to_zooms()
    );
    assert_eq!(
        pairs(vec![ours::ZoomRange::from_max(max)]),
        rust_pairs(vec![rust::ZoomRange::from_max(max)])
    );
    assert_eq!(
        pairs(vec![ours::ZoomRange::from_min(min)]),
        rust_pairs(vec![rust::ZoomRange::from_min(min)])
    );
    assert_eq!(
        pairs(vec![ours::ZoomRange::default()]),
        rust_pairs(vec![rust::ZoomRange::default()])
    );
    assert_eq!(
        ours::ZoomSet::all().to_zooms(),
        rust::ZoomSet::all().to_zooms()
    );
}

/// The original leaves out the zooms 0 and 30: it is asked for sets that hold neither.
fn runs(set: u32) {
    let runs = rust_pairs(rust::ZoomSet::new(set).zoom_ranges());
    assert_eq!(pairs(ours::ZoomSet::new(set).zoom_ranges()), runs);
    assert_eq!(pairs(ours::zoom_ranges(set)), runs);
}

/// What the original gives for sets that hold zoom 0 or zoom 30, and what is given here.
pub fn runs_that_differ() {
    let sets: [(u32, &[(u8, u8)], &[(u8, u8)]); 6] = [
        (0b1, &[], &[(0, 0)]),
        (0b11, &[(1, 1)], &[(0, 1)]),
        (0b1111, &[(1, 3)], &[(0, 3)]),
        (0b10_111, &[(1, 2), (4, 4)], &[(0, 2), (4, 4)]),
        (1 << 30, &[], &[(30, 30)]),
        (3 << 29, &[(29, 29)], &[(29, 30)]),
    ];
    for (set, original, here) in sets {
        assert_eq!(rust_pairs(rust::ZoomSet::new(set).zoom_ranges()), original);
        assert_eq!(pairs(ours::zoom_ranges(set)), here);
    }
}

fn lists(random: &mut Random, set: u32) {
    let zooms: Vec<u8> = (0..random.below(9))
        .map(|_| random.below(31) as u8)
        .collect();
    assert_eq!(ours::zvec2zset(&zooms), Ok(rust::zvec2zset(&zooms)));
    assert_eq!(ours::zvec2zset_rev(&zooms), Ok(rust::zvec2zset_rev(&zooms)));
    let from = ours::ZoomSet::try_from(zooms.clone()).unwrap();
    assert_eq!(
        from.to_zooms(),
        rust::ZoomSet::try_from(zooms).unwrap().to_zooms()
    );
    let zoom = random.below(31) as u8;
    assert_eq!(
        ours::ZoomSet::try_from(zoom).unwrap().to_zooms(),
        rust::ZoomSet::from(zoom).to_zooms()
    );
    let kept = ours::ZoomSet::new(set).and_zoom(zoom).unwrap();
    assert_eq!(kept.to_zooms(), (rust::ZoomSet::new(set) & zoom).to_zooms());
    assert_eq!(
        ours::zoom_bit_rev(zoom),
        Ok(u32::from(rust::ZoomOrZooms::from(zoom)))
    );
    let zoom = zoom.min(COMPARED);
    assert_eq!(ours::zoom_max_xy(zoom), Ok(rust::zoom_max_xy(zoom)));
}

/// Thin, dense, or any, with the two highest bits in half of them.
fn set(random: &mut Random) -> u32 {
    let any = random.next() as u32;
    let bits = match random.below(3) {
        0 => any & random.next() as u32 & random.next() as u32,
        1 => any | random.next() as u32,
        _ => any,
    };
    if random.below(2) == 0 {
        bits & 0x3fff_ffff
    } else {
        bits
    }
}

fn pairs(ranges: Vec<ours::ZoomRange>) -> Vec<(u8, u8)> {
    ranges
        .into_iter()
        .map(|range| (range.min, range.max))
        .collect()
}

fn rust_pairs(ranges: Vec<rust::ZoomRange>) -> Vec<(u8, u8)> {
    ranges
        .into_iter()
        .map(|range| (range.min, range.max))
        .collect()
}
