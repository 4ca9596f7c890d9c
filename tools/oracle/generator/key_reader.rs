//! Keys fed to a reader byte by byte, and readers that a caller fills himself. What a reader tells is worked out for its bytes as a whole
//! key. Whether some bytes leave a reader is found by looking for such bytes.
use std::collections::BTreeMap;

use crate::paper::{self, DEEPEST};
use crate::quadkey;
use crate::record::{List, bytes, caught, xyz};
use crate::sample::Random;
use crate::words;

const LONG: usize = 300;
/// A byte that is no digit.
const BAD: u8 = b'4';

pub fn write(list: &mut List) {
    for key in [quadkey::keys(), quadkey::no_keys(), long()].concat() {
        fed(list, &key);
    }
    let left = left_by_short();
    for reader in small() {
        if left.contains_key(&reader) != leading_to(reader).is_some() {
            list.surprises.push(format!("bytes that leave this reader are found in one of two ways: {reader:?}"));
        }
        filled(list, reader, left.get(&reader).cloned());
    }
    for reader in deep() {
        filled(list, reader, leading_to(reader));
    }
}

// What the reader tells before the first byte and after each.
fn fed(list: &mut List, key: &[u8]) {
    let told: Vec<u64> = (0..=key.len()).flat_map(|count| told(list, &key[..count])).collect();
    list.tell("fed", &bytes(key), told[0], &told[1..]);
}

// What a caller is promised for the bytes as a whole key, which the Rust must say too where it is held.
fn told(list: &mut List, key: &[u8]) -> Vec<u64> {
    let refusal = paper::key(key);
    let answer = if refusal == 0 { Ok(xyz(words::key_tile(key))) } else { Err(refusal) };
    if let Ok(text) = std::str::from_utf8(key)
        && key.len() != DEEPEST.into()
    {
        list.prefixes += 1;
        if !caught(|| quadkey::read(text)).is_ok_and(|rust| rust == answer) {
            list.surprises.push(format!("the Rust stops or says otherwise than the papers: quadkey2xyz {text:?}"));
        }
    }
    [vec![refusal], answer.unwrap_or(vec![0; 3])].concat()
}

// A long key of each digit, of each of several bad bytes, of all digits in turn; these with a bad byte at a place, counted from 1; random
// digits. Their counts run past what a byte holds.
fn long() -> Vec<Vec<u8>> {
    let turn: Vec<u8> = (0..LONG).map(|i| 48 + (i % 4) as u8).collect();
    let mut random = Random::new();
    let mut keys: Vec<Vec<u8>> = [48, 49, 50, 51, 0, 47, 52, 255, b'-'].map(|byte| vec![byte; LONG]).to_vec();
    keys.extend([1, 29, 30, 31, 32, 256].map(|place| {
        let mut key = turn.clone();
        key[place - 1] = BAD;
        key
    }));
    keys.extend([turn, (0..LONG).map(|_| 48 + random.below(4) as u8).collect()]);
    keys
}

/// x, y, count, and whether a byte was bad.
type Reader = (u32, u32, u8, bool);

// The reader that bytes leave, by the words on its fields: a key's tile and length; how many they are, if one is bad; of too many, a count
// of one more than the longest key has.
fn left_by(bytes: &[u8]) -> Reader {
    match paper::key(bytes) {
        0 => {
            let (x, y, z) = words::key_tile(bytes);
            (x, y, z, false)
        }
        5 => (0, 0, bytes.len() as u8, true),
        _ => (0, 0, DEEPEST + 1, false),
    }
}

// Every reader that up to three bytes leave, with such bytes. More bytes have a greater count, and any bad byte does for all.
fn left_by_short() -> BTreeMap<Reader, Vec<u8>> {
    let mut strings: Vec<Vec<u8>> = vec![vec![]];
    let mut left = BTreeMap::new();
    for _ in 0..=3 {
        left.extend(strings.iter().map(|bytes| (left_by(bytes), bytes.clone())));
        let longer = |bytes: &Vec<u8>| [48, 49, 50, 51, BAD].map(|byte| [&bytes[..], &[byte]].concat());
        strings = strings.iter().flat_map(longer).collect();
    }
    left
}

// Bytes that leave the reader, if there are any: as many bad bytes, as many digits, or the key that x and y spell.
fn leading_to(reader: Reader) -> Option<Vec<u8>> {
    let (x, y, count, _) = reader;
    let mut tries = vec![vec![BAD; count.into()], vec![48; count.into()]];
    if count <= DEEPEST {
        tries.push(words::key((x, y, count)));
    }
    tries.into_iter().find(|bytes| left_by(bytes) == reader)
}

fn small() -> Vec<Reader> {
    let mut readers = Vec::new();
    for count in 0..=3 {
        for (x, y) in (0..=5).flat_map(|x| (0..=5).map(move |y| (x, y))) {
            readers.extend([false, true].map(|bad| (x, y, count, bad)));
        }
    }
    readers
}

// Counts around the longest key's and far past it, with columns and rows at both edges of the map and past it.
fn deep() -> Vec<Reader> {
    let mut readers = Vec::new();
    for count in [29, 30, 31, 32, 127, 255] {
        let edges = if count < 32 { vec![0, 1, (1 << count) - 1, 1 << count] } else { vec![0, 1, u32::MAX] };
        for &x in &edges {
            readers.extend(edges.iter().flat_map(|&y| [false, true].map(|bad| (x, y, count, bad))));
        }
    }
    readers
}

// What a reader that a caller filled tells, and what it is after a byte more, by bytes that leave it. Where none do, both are refused, and
// it comes back as it was.
fn filled(list: &mut List, reader: Reader, bytes: Option<Vec<u8>>) {
    let told = bytes.as_ref().map_or(vec![16, 0, 0, 0], |bytes| told(list, bytes));
    list.tell("tile", &numbers(reader), told[0], &told[1..]);
    for byte in [b'0', b'3', BAD, 0] {
        let args = [numbers(reader), vec![byte.into()]].concat();
        match &bytes {
            Some(bytes) => list.tell("feed", &args, 0, &numbers(left_by(&[&bytes[..], &[byte]].concat()))),
            None => list.tell("feed", &args, 16, &numbers(reader)),
        }
    }
}

fn numbers((x, y, count, bad): Reader) -> Vec<u64> {
    vec![x.into(), y.into(), count.into(), bad.into()]
}
