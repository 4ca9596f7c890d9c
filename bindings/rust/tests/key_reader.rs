//! The reader of keys beside `quadkey2tile`, on every prefix of random bytes.
#![allow(missing_docs)]

use std::collections::BTreeSet;

use noripliers::{KeyReader, quadkey2tile};

/// How many strings of bytes are read, and the most bytes that one has.
const STRINGS: usize = 4000;
const BYTES: u64 = 64;

/// Random numbers, the same in every run.
struct Random(u64);

impl Random {
    fn below(&mut self, n: u64) -> u64 {
        // xorshift*
        self.0 ^= self.0 >> 12;
        self.0 ^= self.0 << 25;
        self.0 ^= self.0 >> 27;
        (self.0.wrapping_mul(0x2545_f491_4f6c_dd1d) >> 16) % n
    }

    /// Bytes of which one in so many is any, and the others are digits.
    fn bytes(&mut self, one_in: u64) -> Vec<u8> {
        let byte = |random: &mut Self| match random.below(one_in) {
            0 => random.below(256) as u8,
            _ => b"0123"[random.below(4) as usize],
        };
        (0..self.below(BYTES + 1)).map(|_| byte(self)).collect()
    }
}

#[test]
fn the_reader_tells_what_is_answered_for_the_whole() {
    let mut random = Random(7);
    let mut used = BTreeSet::new();
    let mut told = BTreeSet::new();
    for turn in 0..STRINGS {
        let bytes = random.bytes([1, 16, 64, 1 << 32][turn % 4]);
        let mut reader = KeyReader::new();
        for n in 0..=bytes.len() {
            let (before, behind) = bytes.split_at(n);
            let whole = quadkey2tile(before);
            assert_eq!(reader.tile(), whole, "{before:?}");
            told.insert(whole.map(|tile| tile.z()).map_err(|error| error.number()));
            assert_eq!(reader, before.iter().collect(), "{before:?}");
            // What follows is read by a copy, and leaves the reader where it is.
            let mut copy = reader;
            copy.extend(behind);
            assert_eq!(
                copy,
                bytes.iter().copied().collect(),
                "{bytes:?} from {n} on"
            );
            assert_eq!(reader.tile(), whole, "{before:?}");
            reader.extend(behind.first());
        }
        used.extend(bytes);
    }
    assert_eq!(used.len(), 256, "every byte is read");
    // A key of every length, a bad byte, and too many.
    let all = (0..=30).map(Ok).chain([Err(4), Err(5)]);
    assert_eq!(told, all.collect());
}
