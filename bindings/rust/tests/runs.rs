//! The runs of every set of 16 neighbouring zooms, wherever these lie, against document 02 read
//! plainly: a run is as many zooms of the set as follow each other.
#![allow(missing_docs)]

use noripliers::zoom::{ZoomSet, zoom_ranges};

/// The deepest zoom of a set.
const LAST: u8 = 30;

/// How many neighbouring zooms are in a set or not.
const NEIGHBOURS: u8 = 16;

#[test]
fn runs_are_the_zooms_that_follow_each_other() {
    for lowest in 0..=LAST + 1 - NEIGHBOURS {
        for some in 0..1 << NEIGHBOURS {
            let zset: u32 = some << lowest;
            let zooms: Vec<u8> = (0..=LAST).filter(|zoom| zset >> zoom & 1 == 1).collect();
            let plain = zooms.chunk_by(|zoom, next| zoom + 1 == *next);
            let plain: Vec<(u8, u8)> = plain.map(|run| (run[0], run[run.len() - 1])).collect();
            // Bit 31 is no zoom.
            for zset in [zset, zset | 1 << 31] {
                assert_eq!(pairs(zset), plain, "{zset:#x}");
            }
        }
    }
}

/// The lowest and the highest zoom of each run, which both calls must give alike.
fn pairs(zset: u32) -> Vec<(u8, u8)> {
    let runs = zoom_ranges(zset);
    assert_eq!(runs, ZoomSet::new(zset).zoom_ranges(), "{zset:#x}");
    runs.into_iter().map(|run| (run.min, run.max)).collect()
}
