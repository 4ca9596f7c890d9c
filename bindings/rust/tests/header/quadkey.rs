use std::collections::BTreeMap;

use crate::deepest::{CORNER_KEYS, CORNERS, DEEPEST, DIGITS, TOO_LONG};
use crate::ffi;
use crate::tally::Tally;
use crate::tile::NO_TILES;

type Write = unsafe extern "C" fn(u32, u32, u8, *mut u8, usize, &mut u64) -> u8;
type Xyz = (u32, u32, u8);
/// A reader of keys: x, y, count and bad.
type Reader = (u32, u32, u8, u8);

/// The one reader after more bytes than a key has.
const ENDED: Reader = (0, 0, DEEPEST + 1, 0);

/// Bytes that are no key, and the number of the refusal.
const NO_KEYS: [(&[u8], u8); 5] = [
    (&TOO_LONG, 4),
    (&[b'x'; DIGITS + 1], 4),
    (b"214", 5),
    (b"\0", 5),
    ("2é".as_bytes(), 5),
];

pub fn run(tally: &mut Tally) {
    written(tally);
    read(tally);
    parts(tally);
    fed(tally);
    readers_of_few(tally);
    readers_of_many(tally);
}

fn written(tally: &mut Tally) {
    let calls: [(_, Write, u8); 2] = [
        ("nori_xyz2quadkey", ffi::nori_xyz2quadkey, b'0'),
        ("nori_xyz2quadkey_vec", ffi::nori_xyz2quadkey_vec, 0),
    ];
    for (name, call, zero) in calls {
        let write = |x, y, z| {
            move |out, places, count: &mut u64| unsafe { call(x, y, z, out, places, count) }
        };
        tally.lists(
            name,
            write(3, 5, 3),
            &[2, 1, 3].map(|digit| zero + digit),
            3,
        );
        for (digit, (x, y)) in (0..).zip(CORNERS) {
            let key = [zero + digit; DIGITS];
            tally.lists(name, write(x, y, DEEPEST), &key, DIGITS);
        }
        tally.lists(name, write(0, 0, 0), &[], 0);
        for (x, y, z, number) in NO_TILES {
            tally.leaves(name, 40, write(x, y, z), number);
            tally.leaves(name, 0, write(x, y, z), number);
        }
    }
}

fn read(tally: &mut Tally) {
    let tile = |key: &'static [u8]| {
        move |v: &mut Xyz| unsafe {
            ffi::nori_quadkey2xyz(key.as_ptr(), key.len(), &mut v.0, &mut v.1, &mut v.2)
        }
    };
    let check = |key: &'static [u8]| {
        move |_: &mut ()| unsafe { ffi::nori_quadkey_check(key.as_ptr(), key.len()) }
    };
    let is = |key: &'static [u8]| {
        move |told: &mut u8| unsafe { ffi::nori_is_quadkey(key.as_ptr(), key.len(), told) }
    };
    let keys: [(&[u8], _); 2] = [(b"213", (3, 5, 3)), (b"", (0, 0, 0))];
    let corners = CORNER_KEYS.iter().zip(CORNERS);
    let corners = corners.map(|(key, (x, y))| (key.as_slice(), (x, y, DEEPEST)));
    for (key, xyz) in keys.into_iter().chain(corners) {
        tally.gives("nori_quadkey2xyz", tile(key), xyz);
        tally.gives("nori_quadkey_check", check(key), ());
        tally.gives("nori_is_quadkey", is(key), 1);
    }
    for (key, number) in NO_KEYS {
        tally.refuses("nori_quadkey2xyz", tile(key), number);
        tally.refuses("nori_quadkey_check", check(key), number);
        tally.gives("nori_is_quadkey", is(key), 0);
        tally.leaves("nori_quadkey_flipy", 40, flip(key), number);
    }
    for b in 0..=255 {
        let is = b"0123".contains(&b).into();
        tally.gives(
            "nori_is_quadkey_byte",
            |told| ffi::nori_is_quadkey_byte(b, told),
            is,
        );
    }
    tally.lists("nori_quadkey_flipy", flip(b"0123"), b"2301", 4);
    tally.lists("nori_quadkey_flipy", flip(b""), b"", 0);
    for (key, flipped) in CORNER_KEYS.iter().zip([2, 3, 0, 1]) {
        let flipped = &CORNER_KEYS[flipped];
        tally.lists("nori_quadkey_flipy", flip(key), flipped, DIGITS);
    }
}

fn flip(key: &[u8]) -> impl Fn(*mut u8, usize, &mut u64) -> u8 {
    move |out, places, count| unsafe {
        ffi::nori_quadkey_flipy(key.as_ptr(), key.len(), out, places, count)
    }
}

fn parts(tally: &mut Tally) {
    let ancestor = |key: &'static [u8], n| {
        move |length: &mut u64| unsafe {
            ffi::nori_ancestor_key(key.as_ptr(), key.len(), n, length)
        }
    };
    for n in 0..=4 {
        tally.gives("nori_ancestor_key", ancestor(b"0123", n), n as u64);
    }
    for (key, n, number) in [
        (&b"0123"[..], 5, 3),
        (b"012x", usize::MAX, 3),
        (&CORNER_KEYS[0], DIGITS + 1, 3),
        (&TOO_LONG, DIGITS + 2, 3),
    ] {
        tally.refuses("nori_ancestor_key", ancestor(key, n), number);
    }
    for (key, number) in NO_KEYS {
        tally.refuses("nori_ancestor_key", ancestor(key, 1), number);
        tally.refuses("nori_shared_key", shared(key, b"0"), number);
        tally.refuses("nori_shared_key", shared(b"0", key), number);
    }
    tally.refuses("nori_shared_key", shared(b"x", &TOO_LONG), 4);
    for key in &CORNER_KEYS {
        let length = u64::from(DEEPEST);
        tally.gives("nori_ancestor_key", ancestor(key, DIGITS), length);
        tally.gives("nori_shared_key", shared(key, key), length);
    }
    let pairs: [(&[u8], &[u8], u64); 6] = [
        (&CORNER_KEYS[0], &CORNER_KEYS[1], 0),
        (b"0123", b"0121", 3),
        (b"0123", b"01", 2),
        (b"0", b"0123", 1),
        (b"0", b"1", 0),
        (b"", b"", 0),
    ];
    for (a, b, length) in pairs {
        tally.gives("nori_shared_key", shared(a, b), length);
    }
}

fn shared(a: &[u8], b: &[u8]) -> impl Fn(&mut u64) -> u8 {
    move |length| unsafe { ffi::nori_shared_key(a.as_ptr(), a.len(), b.as_ptr(), b.len(), length) }
}

/// Bytes one after the other, with what the reader tells before the first and after each. There are
/// more of them than a byte counts.
fn fed(tally: &mut Tally) {
    const MANY: usize = 300;
    let digits: Vec<u8> = b"3120".repeat(MANY / 4);
    let mut kinds = vec![digits.clone()];
    kinds.extend(b"0123/4x\0\xff".map(|byte| vec![byte; MANY]));
    for bad in [1, 2, 29, 30, 31, 32, 256, 257] {
        let mut bytes = digits.clone();
        bytes[bad - 1] = b'-';
        kinds.push(bytes);
    }
    for bytes in kinds {
        for n in 0..MANY {
            reads_on(tally, &bytes[..n], bytes[n]);
        }
    }
    let some: [&[u8]; 6] = [
        b"",
        b"213",
        b"2x3",
        &CORNER_KEYS[1][1..],
        &CORNER_KEYS[2],
        &TOO_LONG,
    ];
    for bytes in some {
        for byte in 0..=255 {
            reads_on(tally, bytes, byte);
        }
    }
}

/// The reader that bytes leave tells of them what is answered for them as a key, and takes in one
/// byte more.
fn reads_on(tally: &mut Tally, bytes: &[u8], byte: u8) {
    let (reader, told) = after(bytes);
    let whole = |v: &mut Xyz| unsafe {
        ffi::nori_quadkey2xyz(bytes.as_ptr(), bytes.len(), &mut v.0, &mut v.1, &mut v.2)
    };
    match told {
        Ok(xyz) => tally.gives("nori_quadkey2xyz", whole, xyz),
        Err(number) => tally.refuses("nori_quadkey2xyz", whole, number),
    }
    tells(tally, reader, told);
    takes(tally, reader, byte, Ok(after(&[bytes, &[byte]].concat()).0));
}

/// The reader that bytes leave, and the tile that it tells of them or the refusal.
fn after(bytes: &[u8]) -> (Reader, Result<Xyz, u8>) {
    if bytes.len() > DIGITS {
        return (ENDED, Err(4));
    }
    let count = bytes.len() as u8;
    if !bytes.iter().all(|byte| b"0123".contains(byte)) {
        return ((0, 0, count, 1), Err(5));
    }
    let spelled = |bit: u8| {
        let bits = bytes.iter().map(|byte| (byte - b'0') >> bit & 1);
        bits.fold(0, |number, bit| 2 * number + u32::from(bit))
    };
    let (x, y) = (spelled(0), spelled(1));
    ((x, y, count, 0), Ok((x, y, count)))
}

fn tells(tally: &mut Tally, (x, y, count, bad): Reader, told: Result<Xyz, u8>) {
    let tile = |(tx, ty, tz): &mut Xyz| ffi::nori_key_tile(x, y, count, bad, tx, ty, tz);
    match told {
        Ok(xyz) => tally.gives("nori_key_tile", tile, xyz),
        Err(number) => tally.refuses("nori_key_tile", tile, number),
    }
}

fn takes(tally: &mut Tally, reader: Reader, byte: u8, next: Result<Reader, u8>) {
    let feed = |(x, y, count, bad): &mut Reader| ffi::nori_key_feed(byte, x, y, count, bad);
    tally.turns("nori_key_feed", feed, reader, next);
}

/// Numbers that are the reader of some bytes, or of none.
fn is_left_by(tally: &mut Tally, reader: Reader, bytes: Option<&[u8]>) {
    for byte in [b'0', b'3', b'x'] {
        let next = bytes.map(|bytes| after(&[bytes, &[byte]].concat()).0);
        takes(tally, reader, byte, next.ok_or(16));
    }
    tells(tally, reader, bytes.map_or(Err(16), |bytes| after(bytes).1));
}

/// All small numbers, against what up to three bytes leave.
fn readers_of_few(tally: &mut Tally) {
    let mut left: BTreeMap<Reader, Vec<u8>> = BTreeMap::new();
    let mut strings = vec![vec![]];
    for _ in 0..=3 {
        left.extend(strings.iter().map(|bytes| (after(bytes).0, bytes.clone())));
        let longer = |bytes: &Vec<u8>| b"0123x".map(|byte| [bytes.as_slice(), &[byte]].concat());
        strings = strings.iter().flat_map(longer).collect();
    }
    for x in 0..=5 {
        for y in 0..=5 {
            for count in 0..=3 {
                for bad in [0, 1, 2, 255] {
                    let reader = (x, y, count, bad);
                    is_left_by(tally, reader, left.get(&reader).map(Vec::as_slice));
                }
            }
        }
    }
}

/// Numbers about the longest key and past it.
fn readers_of_many(tally: &mut Tally) {
    for count in [29, 30, 31, 32, 33, 255] {
        let side = 1u32.checked_shl(count.into()).unwrap_or(u32::MAX);
        let places = [0, 1, side / 2, side - 1, side, u32::MAX];
        for (x, y) in places.iter().flat_map(|&x| places.map(|y| (x, y))) {
            for bad in [0, 1, 2, 255] {
                let reader = (x, y, count, bad);
                is_left_by(tally, reader, long(reader).as_deref());
            }
        }
    }
}

/// Bytes that leave a reader of so many, if any do: the key of a tile, bad ones, or too many.
fn long(reader: Reader) -> Option<Vec<u8>> {
    match reader {
        (x, y, z @ ..=DEEPEST, 0) if x < 1 << z && y < 1 << z => Some(key(x, y, z)),
        (0, 0, count @ ..=DEEPEST, 1) => Some(vec![b'x'; count.into()]),
        ENDED => Some(TOO_LONG.to_vec()),
        _ => None,
    }
}

/// The key of a tile has a digit for each bit of column and row.
pub fn key(x: u32, y: u32, z: u8) -> Vec<u8> {
    let digit = |bit| b'0' + (x >> bit & 1) as u8 + 2 * (y >> bit & 1) as u8;
    (0..z).rev().map(digit).collect()
}
