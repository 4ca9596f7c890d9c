//! Random numbers, the same in every run.
use super::COMPARED;

pub struct Random(u64);

impl Random {
    pub fn new(seed: u64) -> Self {
        Self(seed)
    }

    pub fn next(&mut self) -> u64 {
        // xorshift*
        self.0 ^= self.0 >> 12;
        self.0 ^= self.0 << 25;
        self.0 ^= self.0 >> 27;
        self.0.wrapping_mul(0x2545_f491_4f6c_dd1d)
    }

    pub fn below(&mut self, n: u64) -> u64 {
        (self.next() >> 16) % n
    }

    pub fn pick<T: Copy>(&mut self, of: &[T]) -> T {
        of[self.below(of.len() as u64) as usize]
    }

    pub fn option(&mut self, n: u64) -> Option<u8> {
        (self.below(3) > 0).then(|| self.below(n) as u8)
    }

    /// A tile of a zoom, in every third call at the map's edges.
    pub fn tile_of(&mut self, z: u8) -> (u32, u32, u8) {
        let side = 1u64 << z;
        let mut place = || match self.below(6) {
            0 => 0,
            1 => side as u32 - 1,
            _ => self.below(side) as u32,
        };
        (place(), place(), z)
    }

    /// A zoom that is compared.
    pub fn zoom(&mut self) -> u8 {
        self.below(u64::from(COMPARED) + 1) as u8
    }

    pub fn tile(&mut self) -> (u32, u32, u8) {
        let z = self.zoom();
        self.tile_of(z)
    }
}
