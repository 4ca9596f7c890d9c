//! The tiles and boxes that the calls are made with: all small ones, corners, limits, and random ones of a fixed seed.
use crate::paper::DEEPEST;

pub type Xyz = (u32, u32, u8);

pub const SEED: u64 = 0x9E37_79B9_7F4A_7C15;

/// xorshift64*: the same numbers on every run.
pub struct Random(u64);

impl Random {
    pub fn new() -> Self {
        Self(SEED)
    }

    pub fn next(&mut self) -> u64 {
        self.0 ^= self.0 >> 12;
        self.0 ^= self.0 << 25;
        self.0 ^= self.0 >> 27;
        self.0.wrapping_mul(0x2545_F491_4F6C_DD1D)
    }

    pub fn below(&mut self, bound: u64) -> u64 {
        (self.next() >> 4) % bound
    }

    pub fn word(&mut self) -> u32 {
        (self.next() >> 32) as u32
    }

    pub fn coordinate(&mut self, z: u8) -> u32 {
        self.below(1 << z) as u32
    }

    pub fn tile(&mut self, z: u8) -> Xyz {
        (self.coordinate(z), self.coordinate(z), z)
    }

    /// A coordinate `down` zooms below another, inside it.
    pub fn within(&mut self, coordinate: u32, down: u8) -> u32 {
        (coordinate << down) + self.coordinate(down)
    }

    pub fn pick<T: Copy>(&mut self, from: &[T]) -> T {
        from[self.below(from.len() as u64) as usize]
    }

    pub fn picks<T: Copy>(&mut self, from: &[T], count: usize) -> Vec<T> {
        (0..count).map(|_| self.pick(from)).collect()
    }
}

/// Every tile of zoom 0 to 4.
pub fn small() -> Vec<Xyz> {
    let mut tiles = Vec::new();
    for z in 0..=4 {
        for x in 0..1 << z {
            tiles.extend((0..1 << z).map(|y| (x, y, z)));
        }
    }
    tiles
}

/// The corners of a zoom.
pub fn corners(z: u8) -> [Xyz; 4] {
    let last = (1 << z) - 1;
    [(0, 0, z), (last, 0, z), (0, last, z), (last, last, z)]
}

/// The corners and four more tiles of every zoom from 5 on; of the deepest one also the middle of each edge.
pub fn deep() -> Vec<Xyz> {
    let mut random = Random::new();
    let mut tiles = Vec::new();
    for z in 5..=DEEPEST {
        tiles.extend(corners(z));
        tiles.extend((0..4).map(|_| random.tile(z)));
    }
    let (half, last) = (1 << (DEEPEST - 1), (1 << DEEPEST) - 1);
    tiles.extend([(0, half), (half, 0), (last, half), (half, last)].map(|(x, y)| (x, y, DEEPEST)));
    tiles
}

/// What names no tile: one past each limit, past each corner of the deepest zoom, and far past it.
pub fn beyond() -> Vec<Xyz> {
    let mut tiles = Vec::new();
    for z in [0, 1, 2, 5, 16, 28, 29, DEEPEST] {
        let end = 1 << z;
        tiles.extend([(end, 0, z), (0, end, z), (end, end, z), (end - 1, u32::MAX, z), (u32::MAX, end - 1, z)]);
    }
    let (last, past) = ((1 << DEEPEST) - 1, (1 << (DEEPEST + 1)) - 1);
    tiles.extend([(last + 1, last, DEEPEST), (last, last + 1, DEEPEST)]);
    tiles.extend([(past, 0, DEEPEST + 1), (0, past, DEEPEST + 1), (past, past, DEEPEST + 1)]);
    for z in [DEEPEST + 1, 32, 255] {
        tiles.extend([(0, 0, z), (1 << 30, 0, z), (0, u32::MAX, z)]);
    }
    tiles
}

pub fn every() -> Vec<Xyz> {
    [small(), deep(), beyond()].concat()
}

/// Zoom, least and greatest x, least and greatest y.
pub type Zbox = (u8, u32, u32, u32, u32);

/// Every box of zoom 0 to 2; of every zoom a whole one, two single corners and random ones; all corners of the deepest.
pub fn boxes() -> Vec<Zbox> {
    let mut random = Random::new();
    let mut boxes = Vec::new();
    for z in 0..=2 {
        let spans: Vec<(u32, u32)> = (0..1 << z).flat_map(|low| (low..1 << z).map(move |high| (low, high))).collect();
        for &(minx, maxx) in &spans {
            boxes.extend(spans.iter().map(|&(miny, maxy)| (z, minx, maxx, miny, maxy)));
        }
    }
    for z in 3..=DEEPEST {
        let last = (1 << z) - 1;
        boxes.extend([(z, 0, last, 0, last), (z, 0, 0, last, last), (z, last, last, 0, 0)]);
        for _ in 0..4 {
            let (a, b, _) = random.tile(z);
            boxes.push((z, a / 2, last - a / 3, b / 2, last - b / 3));
            let (wide, high) = (random.below(8) as u32, random.below(8) as u32);
            boxes.push((z, a, last.min(a + wide), b, last.min(b + high)));
        }
    }
    boxes.extend(corners(DEEPEST).map(|(x, y, z)| (z, x, x, y, y)));
    boxes
}

/// What is no box: upside down, off the map, or too deep, and two of these at once.
pub fn no_boxes() -> Vec<Zbox> {
    let mut boxes = Vec::new();
    for z in [0, 1, 5, 29, DEEPEST] {
        let end = 1 << z;
        boxes.extend([(z, 0, end, 0, 0), (z, 0, 0, 0, end), (z, 1, 0, 0, 0), (z, 0, 0, 1, 0)]);
        boxes.extend([(z, end, end, 0, 0), (z, 0, u32::MAX, 0, u32::MAX), (z, u32::MAX, 0, u32::MAX, 0)]);
    }
    for z in [DEEPEST + 1, 32, 255] {
        boxes.extend([(z, 0, 0, 0, 0), (z, 1, 0, 0, 0), (z, 0, u32::MAX, 0, u32::MAX)]);
    }
    boxes
}
